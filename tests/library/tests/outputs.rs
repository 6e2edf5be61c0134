//! Lent outputs of every length around the file's: 11 exactly where the file does not fit, and nothing written but the
//! file (`made` looks at both sides of the output and behind the file).

use library::common::table_limits;
use library::made::{made, made_whole};
use library::sheets;

/// The file of a sheet stands in every output that it fits, and 11 is answered for every other.
fn fits_exactly(sheet: &[u8], rooms: impl IntoIterator<Item = usize>) {
    let file = reader::make_table(sheet).expect("a table");
    let mut seen = [0, 0];
    for room in rooms {
        let wanted = if room < file.len() {
            Err(11)
        } else {
            Ok(file.clone())
        };
        seen[usize::from(wanted.is_ok())] += 1;
        assert!(
            made(sheet, room) == wanted,
            "{room} for {} bytes",
            file.len()
        );
    }
    assert!(seen.iter().all(|&count| count > 1), "{seen:?}");
}

#[test]
fn every_length_to_past_one_block() {
    fits_exactly(b"act a;proc X=a.X;init X;", 0..=1100);
}

#[test]
fn every_length_to_past_many_blocks() {
    let sheet = sheets::typical(3000);
    let length = made_whole(sheet.as_bytes()).expect("a table").len();
    assert!(length > 1024);
    fits_exactly(sheet.as_bytes(), 0..=length + 600);
}

#[test]
fn around_every_block_of_the_longest_file() {
    let sheet = table_limits::longest_stream();
    let around = (0..=128).flat_map(|block| [0, 1, 511].map(|more| block * 512 + more));
    fits_exactly(sheet.as_bytes(), around);
    fits_exactly(sheet.as_bytes(), [65_534, 65_535, 65_536, 65_537, 65_600]);
}

#[test]
fn refused_sheets_write_nothing_whatever_the_output() {
    for (sheet, wanted) in [
        ("\u{7f}", 2),
        ("00", 3),
        ("((((((((((((((((((", 4),
        ("", 5),
        ("sort D 0;proc X=tau;init X;", 6),
        ("proc X=a;init X;", 7),
        ("act a:Bool;proc X=a;init X;", 8),
        ("proc X=X;init X;", 9),
        ("act a;proc X=a.a.a.a.a.a.a.a.a.a;init X;", 10),
    ] {
        for room in [0, 1, 511, 512, 513, 65_536] {
            assert_eq!(made(sheet.as_bytes(), room), Err(wanted), "{sheet}");
        }
    }
    assert_eq!(made(&[b' '; 4097], 0), Err(1));
}

#[test]
fn files_of_all_vectors_in_their_own_length() {
    let mut files = 0;
    for case in library::common::vectors::of("sheets") {
        let sheet = case.bytes("sheet");
        let Ok(file) = reader::make_table(&sheet) else {
            continue;
        };
        let made = [file.len() - 1, file.len()].map(|room| made(&sheet, room));
        assert_eq!(made, [Err(11), Ok(file)], "{}", case.text("name"));
        files += 1;
    }
    assert!(files > 300, "{files}");
}
