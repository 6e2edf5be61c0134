//! Table files put to the proved library and to the other reader: vectors, files made of sheets, and mutants of them.

use library::check_table;
use library::common::random::Random;
use library::common::{sort_sections, tables, vectors};
use library::files::{made, rechecked, slightly_changed};

/// Both say the same of a file.
fn same(file: &[u8], what: &str) -> u8 {
    let wanted = reader::read_table(file).err().unwrap_or(0);
    assert_eq!(check_table(file), wanted, "{what}");
    wanted
}

#[test]
fn vectors_get_their_answers() {
    for case in vectors::all("tables") {
        let wanted = match case.text("answer") {
            "ok" => 0,
            refused => vectors::number(refused),
        };
        assert_eq!(
            check_table(&case.bytes("file")),
            wanted,
            "{}",
            case.text("name")
        );
    }
}

#[test]
fn files_of_sheets_are_accepted() {
    let files = made();
    assert!(files.len() > 300);
    for file in &files {
        assert_eq!(same(file, "a file of a sheet"), 0);
    }
}

/// Where names stand, and where they do not: damaged sort sections, right ones, tables that come from no sheet.
#[test]
fn sort_sections_damaged_and_right() {
    let file = |stream: &sort_sections::Stream| reader::to_blocks(&stream.bytes);
    for stream in sort_sections::damaged() {
        assert_eq!(same(&file(&stream), &stream.what), 14);
    }
    for stream in sort_sections::right() {
        assert_eq!(same(&file(&stream), &stream.what), 0);
    }
    for seed in 0..2000 {
        let what = format!("seed {seed}");
        let [named, older] = [tables::table(seed), tables::older(seed)];
        let files = [named, older].map(|table| reader::encode_file(&table));
        assert_eq!(files.map(|file| same(&file, &what)), [0; 2]);
    }
}

/// Every byte of a sort section with every value.
#[test]
fn every_value_in_a_sort_section() {
    let table = reader::make_table(b"sort D 3;sort Ef 2;act a:D;act Ef_:Ef;proc X=a(2);init X;");
    let file = table.expect("a table");
    let mut accepted = 0;
    for at in 4..4 + 16 {
        for value in 0..=255 {
            let mut mutant = file.clone();
            mutant[at] = value;
            accepted += usize::from(same(&rechecked(mutant), &format!("{value} at {at}")) == 0);
        }
    }
    assert!(accepted > 100, "{accepted}");
}

#[test]
fn every_byte_changed_in_turn() {
    for file in made().iter().step_by(60) {
        for at in 0..file.len() {
            let mut mutant = file.clone();
            mutant[at] ^= 1 << (at % 8);
            assert_ne!(same(&mutant, &format!("byte {at}")), 0);
        }
    }
}

#[test]
fn stream_bytes_changed_and_the_check_made_right_again() {
    let mut random = Random::new(5);
    let mut accepted = 0;
    for file in made().iter().step_by(3) {
        for _ in 0..60 {
            let mut mutant = file.clone();
            let block = random.below(mutant.len() / 512);
            let used = if random.one_in(8) { 506 } else { 60 };
            mutant[block * 512 + 4 + random.below(used)] = random.below(256) as u8;
            accepted += usize::from(same(&rechecked(mutant), "a changed stream") == 0);
        }
    }
    assert!(accepted > 100, "only {accepted} mutants were accepted");
}

#[test]
fn small_values_changed_and_the_check_made_right_again() {
    let mut random = Random::new(6);
    let mut accepted = 0;
    for file in made().iter().step_by(2) {
        for _ in 0..60 {
            let mutant = slightly_changed(&mut random, file);
            accepted += usize::from(same(&mutant, "a changed stream") == 0);
        }
    }
    assert!(accepted > 100, "only {accepted} mutants were accepted");
}

#[test]
fn blocks_dropped_doubled_swapped_and_renumbered() {
    for file in made().iter().filter(|file| file.len() > 1024).take(20) {
        let blocks: Vec<&[u8]> = file.chunks(512).collect();
        same(&blocks[1..].concat(), "first block dropped");
        same(&blocks[..blocks.len() - 1].concat(), "last block dropped");
        same(&[file.as_slice(), blocks[0]].concat(), "a block doubled");
        let mut swapped = blocks.clone();
        swapped.swap(0, 1);
        same(&swapped.concat(), "blocks swapped");
        for at in 0..4 {
            let mut mutant = file.clone();
            mutant[512 + at] ^= 1;
            same(&rechecked(mutant), "number or count changed");
        }
    }
}

#[test]
fn one_block_too_many_and_one_too_few() {
    for file in made().iter().step_by(25) {
        let count = file.len() / 512;
        for wanted in [count - 1, count + 1] {
            let mut mutant = file.clone();
            mutant.resize(wanted * 512, 0);
            for (number, block) in mutant.chunks_mut(512).enumerate() {
                block[..2].copy_from_slice(&(number as u16).to_le_bytes());
                block[2..4].copy_from_slice(&(wanted as u16).to_le_bytes());
            }
            assert_ne!(same(&rechecked(mutant), "another number of blocks"), 0);
        }
    }
}

#[test]
fn lengths() {
    for length in [0, 1, 511, 512, 513, 1024, 65_536, 66_048, 200_000] {
        same(&vec![0; length], "zeros");
    }
    let file = &made()[0];
    for cut in [1, 100, 511] {
        assert_eq!(same(&file[..file.len() - cut], "cut"), 12);
    }
}

#[test]
fn a_table_of_128_blocks() {
    let file = library::large::large_file();
    assert_eq!(file.len(), 65_536);
    assert_eq!(same(&file, "a large table"), 0);
    for at in (4..file.len()).step_by(997) {
        let mut mutant = file.clone();
        mutant[at] ^= 0x40;
        same(&rechecked(mutant), "a changed large table");
    }
}
