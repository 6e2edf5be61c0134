//! Sheets and streams of all lengths: short ones are read and written in shorter arrays, and each border is crossed.

use library::check_sheet;
use library::common::{repeated, table_limits};
use library::made::same;
use library::sheets;
use reader::limits::FILE_BYTES;

/// Both make the same table of a sheet that is accepted.
fn accepted(sheet: &str) {
    assert_eq!(same(sheet.as_bytes(), FILE_BYTES, "a length"), 0, "{sheet}");
    assert_eq!(check_sheet(sheet.as_bytes()), 0, "{sheet}");
}

#[test]
fn sheets_of_every_length() {
    for length in 500..=4096 {
        let sheet = sheets::typical(length);
        assert_eq!(sheet.len(), length);
        accepted(&sheet);
    }
    for length in 25..500 {
        accepted(&format!("{:length$}", sheets::SHORT));
    }
}

#[test]
fn summands_of_every_number() {
    for count in 1..=255 {
        accepted(&format!(
            "act a;proc X={};init X;",
            repeated("a", count, "+")
        ));
        accepted(&format!(
            "act a;proc X={};init X;",
            repeated("a<|0|>delta", count, "+")
        ));
    }
}

#[test]
fn streams_of_many_lengths() {
    let mut lengths = Vec::new();
    for calls in 1..=5 {
        for heads in 1..=100 {
            let sheet = table_limits::wide_summands(calls, heads);
            lengths.push(reader::make_table(sheet.as_bytes()).expect("a table").len());
            accepted(&sheet);
        }
    }
    lengths.sort();
    lengths.dedup();
    assert!(lengths.len() > 100, "{} lengths", lengths.len());
}

/// The stream of an accepted sheet is this long.
fn stream_length(sheet: &str) -> usize {
    let checked = reader::check_sheet(sheet.as_bytes()).expect("accepted");
    reader::encode(&reader::linear_table(&checked).expect("a table")).len()
}

/// Sheets with a summand of four bytes again and again and a name of one to four characters have streams of all lengths in
/// a range, each of which is tried.
fn every_stream(
    sheet: impl Fn(&str, usize) -> String,
    counts: std::ops::Range<usize>,
) -> (usize, usize) {
    let mut next = None;
    let mut first = 0;
    for count in counts {
        for name in ["n", "nn", "nnn", "nnnn"] {
            let sheet = sheet(name, count);
            let length = stream_length(&sheet);
            assert_eq!(*next.get_or_insert(length), length);
            first = if first == 0 { length } else { first };
            next = Some(length + 1);
            accepted(&sheet);
        }
    }
    (first, next.expect("some stream"))
}

#[test]
fn streams_of_every_length_over_two_blocks() {
    let sheet =
        |name: &str, count| format!("act {name};proc X={};init X;", repeated(name, count, "+"));
    let (first, end) = every_stream(sheet, 1..256);
    assert!(first < 30 && end > 1030, "{first} to {end}");
}

#[test]
fn streams_of_every_length_around_8192() {
    let sheet = |name: &str, count| table_limits::with_wide_summands(2, 30, name, count);
    let (first, end) = every_stream(sheet, 40..120);
    assert!(first < 8150 && end > 8250, "{first} to {end}");
}
