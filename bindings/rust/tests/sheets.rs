//! Every sheet and every table file of the vectors: number, file, and the file read again.

mod common;

use common::{number, vectors};
use wizbratel::{check, make_into, question, Table, MAX_FILE};

#[test]
fn sheets_get_their_tables_or_numbers() {
    let (mut made, mut refused) = (0, 0);
    for case in vectors::all("sheets") {
        let (sheet, name) = (case.bytes("sheet"), case.text("name"));
        if case.get("stream").is_none() && case.get("refused").is_none() {
            continue; // asked for its walk only
        }
        let wanted = vectors::made(&case);
        let mut out = [7; MAX_FILE];
        let room = vectors::room(&case).min(MAX_FILE);
        let answer = make_into(&sheet, &mut out[..room]).map(|length| out[..length].to_vec());
        assert_eq!(answer.map_err(|by| by.number()), wanted, "{name}");
        let wanted = wanted.err();
        // all the others are asked with room enough
        let wanted = wanted.filter(|&question| question != 11);
        assert_eq!(number(&check(&sheet)), wanted, "{name}");
        let table = Table::make(&sheet);
        assert_eq!(number(&table), wanted, "{name}");
        match table {
            Ok(table) => {
                let file = reader::make_table(&sheet).expect(name);
                assert_eq!(table.file(), file, "{name}");
                assert_eq!(Table::read(&file).as_ref(), Ok(&table), "{name}");
                made += 1;
            }
            Err(_) => refused += 1,
        }
    }
    // those refused by 11 for their room are made here
    assert_eq!((made, refused), (406 + 39 + 35, 835 + 31 + 35));
}

#[test]
fn table_files_get_their_numbers() {
    for case in vectors::all("tables") {
        let (file, name) = (case.bytes("file"), case.text("name"));
        let read = Table::read(&file);
        match case.text("answer") {
            "ok" => assert_eq!(read.expect(name).file(), file, "{name}"),
            refused => assert_eq!(number(&read), Some(vectors::number(refused)), "{name}"),
        }
    }
}

#[test]
fn outputs_that_are_too_short() {
    let sheet = b"act a;proc X=a.X;init X;";
    let mut out = [7; MAX_FILE];
    assert_eq!(number(&make_into(sheet, &mut out[..0])), Some(11));
    assert_eq!(number(&make_into(sheet, &mut out[..511])), Some(11));
    assert!(out.iter().all(|&byte| byte == 7));
    assert_eq!(make_into(sheet, &mut out), Ok(512));
    assert!(out[512..].iter().all(|&byte| byte == 7));
}

#[test]
fn refusals_say_what_was_asked() {
    let refused = check(&[b' '; 4097]).unwrap_err();
    let text = "refused by question 1: at most 4,096 bytes in the sheet?";
    assert_eq!(refused.to_string(), text);
    let error: Box<dyn std::error::Error> = Box::new(refused);
    assert_eq!(error.to_string(), text);
    for number in 0..=u8::MAX {
        let known = (1..=17).contains(&number);
        assert_eq!(question(number).is_some(), known, "{number}");
    }
}
