//! Lent outputs of every length around a text's: 11 exactly where the text does not fit; and files that are refused.
//! Nothing is written but the text (`printed` looks at both sides of the output, behind the text, and at the file).

use library::files::rechecked;
use library::printed::{printed, same};
use library::printing::printings;
use reader::limits::SHEET_BYTES;

/// Outputs for which every refusal is tried.
const ROOMS: [usize; 7] = [0, 1, 26, 27, 511, 4096, 65_536];

/// The file of the worked example.
fn plain() -> Vec<u8> {
    reader::make_table(b"act a;proc X=a.X;init X;").expect("a table")
}

/// A file is refused by this question, whatever the output.
fn refused(file: &[u8], wanted: u8, what: &str) {
    for room in ROOMS {
        assert_eq!(printed(file, room), Err(wanted), "{what}, {room}");
        assert_eq!(same(file, room, what), wanted);
    }
}

#[test]
fn every_length_around_the_text() {
    for printing in printings() {
        let text = reader::print_table(&printing.file).expect("a text");
        let short = text.len() < 1000;
        for room in 0..=text.len() + 600 {
            // of a long text every length near its end, and some before
            if short || room.is_multiple_of(97) || room + 40 > text.len() {
                let wanted = if room < text.len() {
                    Err(11)
                } else {
                    Ok(text.clone())
                };
                let what = printing.what;
                assert_eq!(printed(&printing.file, room), wanted, "{what}, {room}");
            }
        }
    }
}

#[test]
fn lengths_and_blocks_that_are_refused() {
    let file = plain();
    for length in [0, 1, 511, 513, 1023] {
        let mut cut = file.clone();
        cut.resize(length, 0);
        refused(&cut, 12, "another length");
    }
    refused(&vec![0; 66_048], 12, "a block too many");
    for at in [0, 1, 2, 3, 4, 20, 300, 509, 510, 511] {
        let mut changed = file.clone();
        changed[at] ^= 0x10;
        refused(&changed, 13, "a byte changed");
    }
}

#[test]
fn streams_that_are_refused() {
    // hex F2, counts and sizes, names of Bool and the action, parameters, a call, the start, and what is behind it
    for (at, byte) in [
        (4, 0),
        (5, 2),
        (6, 3),
        (7, 3),
        (8, b'b'),
        (15, b'2'),
        (18, 5),
        (24, 1),
        (25, 1),
        (26, 1),
        (509, 1),
    ] {
        let mut changed = plain();
        changed[at] = byte;
        refused(&rechecked(changed), 14, &format!("byte {at}"));
    }
}

/// Questions are put in the order 12, 13, 14, 17, 11.
#[test]
fn seventeen_comes_before_eleven() {
    let long = "v".repeat(16);
    for (sheet, what) in [
        (
            format!("act a;proc X={};init X;", vec!["a.a"; 16].join("+")),
            "17 equations",
        ),
        (
            format!("act {long};proc X(x:Bool)={long};init X(0);"),
            "a long name",
        ),
    ] {
        let file = reader::make_table(sheet.as_bytes()).expect("a table");
        refused(&file, 17, what);
        let mut changed = file;
        changed[30] ^= 1;
        refused(&changed, 13, what);
    }
    refused(&library::large::large_file(), 17, "128 blocks");
}

#[test]
fn spare_room_is_left() {
    for room in [27, 28, 100, SHEET_BYTES, SHEET_BYTES + 1, 65_536] {
        let text = printed(&plain(), room);
        assert_eq!(text.as_deref(), Ok("act a;proc p0=a.p0;init p0;"));
    }
}
