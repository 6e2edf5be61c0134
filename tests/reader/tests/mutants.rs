//! Changed sheets: each gets an answer, and one that is accepted gets a table that reads back.

mod common;

use common::mutate::{mutant, operator_mutant};
use common::random::Random;
use common::{generate, vectors};

/// The number of the question that a sheet fails, or 0; its walk says the same.
fn answer(text: &[u8]) -> usize {
    let walk = reader::walk(text);
    match reader::make_table(text) {
        Ok(file) => {
            let table = reader::read_table(&file).unwrap();
            assert_eq!(reader::encode_file(&table), file);
            assert!(!walk.starts_with("refused"));
            0
        }
        Err(number) => {
            assert_eq!(walk, format!("refused {number}\n"));
            usize::from(number)
        }
    }
}

#[test]
fn every_mutant_gets_one_answer() {
    let mut random = Random::new(11);
    let mut verdicts = [0; 12];
    for case in vectors::of("sheets") {
        let sheet = case.bytes("sheet");
        for _ in 0..8 {
            verdicts[answer(&mutant(&mut random, &sheet))] += 1;
        }
    }
    assert_eq!(verdicts[11], 0);
    assert!(
        verdicts[..11].iter().all(|&count| count > 5),
        "{verdicts:?}"
    );
}

#[test]
fn every_mutant_with_operators_gets_one_answer() {
    let mut random = Random::new(12);
    let mut verdicts = [0; 12];
    for seed in 0..1500 {
        let sheet = generate::with_operators(seed);
        for _ in 0..8 {
            verdicts[answer(&operator_mutant(&mut random, sheet.as_bytes()))] += 1;
        }
    }
    println!("{verdicts:?}");
    for number in [0, 2, 3, 5, 7, 8, 10] {
        assert!(verdicts[number] > 20, "{number}: {verdicts:?}");
    }
}
