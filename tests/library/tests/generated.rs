//! Generated and changed sheets, file for file beside the reader, in outputs of many lengths.

use library::check_sheet;
use library::common::random::Random;
use library::common::{generate, mutate};
use library::made::same;
use reader::limits::FILE_BYTES;

/// So many sheets, unless the variable of this name says otherwise.
const SHEETS: usize = 100_000;
const VARIABLE: &str = "WIZBRATEL_SHEETS";

/// How many sheets are tried.
fn count() -> usize {
    match std::env::var(VARIABLE) {
        Ok(number) => number.parse().expect(VARIABLE),
        Err(_) => SHEETS,
    }
}

/// A generated sheet: small, with many heads, with circles, with operators, with heads and operators.
fn sheet(seed: u64) -> String {
    match seed % 5 {
        0 => generate::sheet(seed),
        1 => generate::with_heads(seed),
        2 => generate::with_circles(seed),
        3 => generate::with_operators(seed),
        _ => generate::with_heads_and_operators(seed),
    }
}

/// Mostly room for every file; now and then for few blocks.
fn room(random: &mut Random) -> usize {
    match random.below(8) {
        0 => random.below(1200),
        1 => 512 * random.below(5),
        _ => FILE_BYTES,
    }
}

#[test]
fn files_and_answers() {
    let mut random = Random::new(31);
    let mut seen = [0; 12];
    let count = count();
    for seed in 0..(count / 4) as u64 {
        let generated = sheet(seed);
        let changed = [(); 2].map(|()| mutate::changed(&mut random, &generated));
        let generated = generated.into_bytes();
        let mutant = mutate::operator_mutant(&mut random, &generated);
        for sheet in [generated, mutant].iter().chain(&changed) {
            let number = same(sheet, room(&mut random), "generated");
            seen[usize::from(number)] += 1;
            let checked = if number == 11 { 0 } else { number };
            assert_eq!(
                check_sheet(sheet),
                checked,
                "{}",
                String::from_utf8_lossy(sheet)
            );
        }
    }
    println!("answers 0 to 11: {seen:?}");
    let least = count / 100;
    assert!(seen.iter().all(|&seen| seen >= least), "{seen:?}");
}
