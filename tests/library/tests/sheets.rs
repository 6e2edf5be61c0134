//! Sheets put to the library's check and to the other reader: limits, mutants, short and long inputs, the dearest.

use std::time::{Duration, Instant};

use library::common::random::Random;
use library::common::{boundaries, mutate, slow, vectors, within, worst};
use library::{check_sheet, sheets};

/// A call takes less than two milliseconds, which the benchmark shows; a busy machine is given more.
const AT_ONCE: Duration = Duration::from_millis(10);

/// Both say the same of a sheet.
fn same(sheet: &[u8], what: &str) -> u8 {
    let wanted = reader::make_table(sheet).err().unwrap_or(0);
    let text = || String::from_utf8_lossy(sheet);
    assert_eq!(check_sheet(sheet), wanted, "{what}: {}", text());
    wanted
}

#[test]
fn every_limit_from_both_sides() {
    for case in boundaries::sheets() {
        let answer = check_sheet(&case.sheet);
        assert_eq!(answer, case.wanted, "{}", case.what);
    }
}

#[test]
fn mutants_of_vectors() {
    let mut random = Random::new(22);
    let mut seen = [0; 11];
    for case in vectors::of("sheets") {
        let sheet = case.bytes("sheet");
        for _ in 0..8 {
            let mutant = mutate::mutant(&mut random, &sheet);
            seen[usize::from(same(&mutant, "a mutant"))] += 1;
        }
    }
    assert!(seen.iter().all(|&count| count >= 5), "{seen:?}");
}

#[test]
fn a_sheet_cut_and_changed_at_every_byte() {
    let sheet = sheets::typical(500).into_bytes();
    for at in 0..sheet.len() {
        same(&sheet[..at], "the front");
        same(&sheet[at..], "the rest");
        let without = [&sheet[..at], &sheet[at + 1..]].concat();
        same(&without, "a byte left out");
        for bit in 0..8 {
            let mut changed = sheet.clone();
            changed[at] ^= 1 << bit;
            same(&changed, "a bit changed");
        }
    }
}

#[test]
fn nothing_and_every_single_byte() {
    assert_eq!(same(&[], "nothing"), 5);
    for byte in 0..=255 {
        assert_ne!(same(&[byte], "one byte"), 0);
    }
}

#[test]
fn runs_of_one_byte() {
    for byte in 0..=255 {
        for length in [2, 4095, 4096, 4097] {
            let answer = same(&vec![byte; length], "a run");
            let inside = matches!(byte, 0x20..=0x7e | b'\n');
            assert_eq!(answer == 1, length == 4097);
            assert_eq!(answer == 2, length != 4097 && !inside);
        }
    }
    assert_eq!(check_sheet(&[0; 4096]), 2);
}

#[test]
fn long_inputs() {
    for length in [4097, 4098, 65_535, 65_536, 65_537, 1 << 20] {
        assert_eq!(same(&vec![b' '; length], "blanks"), 1);
        assert_eq!(same(&vec![0; length], "zeros"), 1);
    }
}

#[test]
fn timed_sheets_are_accepted() {
    let sheets = sheets::accepted();
    assert_eq!(sheets.each_ref().map(String::len), [25, 500, 4096]);
    for sheet in sheets {
        assert_eq!(same(sheet.as_bytes(), "a timed sheet"), 0);
    }
}

/// The answer and the shortest time of a few calls.
fn timed(sheet: &[u8]) -> (u8, Duration) {
    let call = || {
        let began = Instant::now();
        (check_sheet(sheet), began.elapsed())
    };
    let calls = (0..5).map(|_| call());
    calls.min_by_key(|call| call.1).expect("some call")
}

#[test]
fn dearest_sheets_at_once_on_a_small_stack() {
    for case in [worst::sheets(), slow::sheets()].concat() {
        let sheet = case.sheet;
        let (answer, taken) = within(Duration::from_secs(5), move || timed(&sheet));
        assert_eq!(answer, case.wanted, "{}", case.what);
        assert!(taken < AT_ONCE, "{}: {taken:?}", case.what);
    }
}
