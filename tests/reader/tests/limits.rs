//! Each limit of document 01 on a sheet, from both sides, and the lent output.

mod common;

use common::{boundaries, table_limits};

#[test]
fn questions_1_to_9() {
    for case in boundaries::sheets() {
        let answer = reader::make_table(&case.sheet).err().unwrap_or(0);
        assert_eq!(answer, case.wanted, "{}", case.what);
    }
}

#[test]
fn question_10() {
    for case in table_limits::sheets() {
        let answer = reader::make_table(&case.sheet).err().unwrap_or(0);
        assert_eq!(answer, case.wanted, "{}", case.what);
    }
}

#[test]
fn bytes_of_the_stream() {
    let longest = table_limits::longest_stream();
    let sheet = reader::check_sheet(longest.as_bytes()).unwrap();
    let table = reader::linear_table(&sheet).unwrap();
    assert_eq!(reader::encode(&table).len(), 64_768);
    assert_eq!(
        reader::make_table_within(longest.as_bytes(), 65_535),
        Err(11)
    );
}

#[test]
fn lent_output() {
    let sheet = b"act a;proc X=a.X;init X;";
    let made = [0, 511, 512, 513].map(|lent| reader::make_table_within(sheet, lent));
    let file = reader::make_table(sheet).unwrap();
    assert_eq!(file.len(), 512);
    assert_eq!(made, [Err(11), Err(11), Ok(file.clone()), Ok(file)]);
    assert_eq!(reader::make_table_within(b"proc X=X;init X;", 0), Err(9));
}
