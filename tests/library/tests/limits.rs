//! Every limit of the table (question 10), met and passed by one, and what the limits do not bind.

use library::check_sheet;
use library::common::table_limits;
use library::made::{made, same};
use reader::limits::{FILE_BYTES, STREAM_BYTES};

#[test]
fn met_and_passed_by_one() {
    for case in table_limits::sheets() {
        let (what, sheet) = (case.what, case.sheet);
        assert!(sheet.len() <= 4096, "{what}: {} bytes", sheet.len());
        assert_eq!(same(&sheet, FILE_BYTES, &what), case.wanted, "{what}");
        assert_eq!(check_sheet(&sheet), case.wanted, "{what}");
    }
}

#[test]
fn the_longest_stream() {
    let sheet = table_limits::longest_stream();
    let checked = reader::check_sheet(sheet.as_bytes()).expect("accepted");
    let stream = reader::encode(&reader::linear_table(&checked).expect("a table"));
    assert_eq!(stream.len(), STREAM_BYTES);
    assert_eq!(
        made(sheet.as_bytes(), FILE_BYTES),
        Ok(reader::to_blocks(&stream))
    );
    assert_eq!(made(sheet.as_bytes(), FILE_BYTES - 1), Err(11));
}

#[test]
fn too_long_a_stream_is_10_whatever_the_output() {
    let cases = table_limits::sheets();
    let refused = cases.iter().filter(|case| case.wanted == 10);
    for case in refused {
        for room in [0, 511, 512, FILE_BYTES] {
            assert_eq!(made(&case.sheet, room), Err(10), "{}", case.what);
        }
    }
}
