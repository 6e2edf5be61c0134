//! Every table of the vectors that prints, and tables of generated sheets, printed and read back.

mod common;

use common::{generate, number, vectors};
use wizbratel::{Table, MAX_SHEET};

#[test]
fn tables_get_their_texts_or_numbers() {
    let (mut texts, mut refused) = (0, 0);
    for case in vectors::all("prints") {
        let (name, wanted) = (case.text("name"), vectors::printed(&case));
        let room = vectors::room(&case);
        let mut out = [7; MAX_SHEET];
        let table = Table::read(&case.bytes("file"));
        let printed = table.and_then(|table| table.print_into(&mut out[..room]));
        match printed {
            Ok(length) => {
                texts += 1;
                let text = String::from_utf8_lossy(&out[..length]).into_owned();
                assert_eq!(Ok(text), wanted, "{name}");
                assert!(out[length..].iter().all(|&byte| byte == 7), "{name}");
            }
            Err(by) => {
                refused += 1;
                assert_eq!(Err(by.number()), wanted, "{name}");
                assert_eq!(out, [7; MAX_SHEET], "{name}");
            }
        }
    }
    assert_eq!((texts, refused), (39 + 42 + 41, 31 + 28 + 29));
}

/// A table without names is read back as the same table with the names that it is printed with.
#[test]
fn tables_of_the_earlier_layout() {
    let mut texts = 0;
    for seed in 0..500 {
        let Ok(file) = reader::make_table(generate::with_names(seed).as_bytes()) else {
            continue;
        };
        let older = reader::read_table(&file).unwrap().older();
        let table = Table::read(&reader::encode_file(&older)).unwrap();
        if let Ok(text) = table.print() {
            let again = Table::make(text.as_bytes()).unwrap();
            assert_eq!(
                again.file(),
                reader::encode_file(&older.renewed()),
                "{text}"
            );
            texts += 1;
        }
    }
    assert!(texts > 200, "{texts}");
}

#[test]
fn texts_of_generated_sheets() {
    let (mut texts, mut refused) = (0, 0);
    for seed in 0..1500 {
        let sheet = generate::sheet(seed);
        let Ok(table) = Table::make(sheet.as_bytes()) else {
            continue;
        };
        let printed = table.print();
        match reader::print_table(table.file()) {
            Ok(text) => {
                texts += 1;
                assert_eq!(printed.as_deref(), Ok(text.as_str()), "{sheet}");
                assert_eq!(Table::make(text.as_bytes()), Ok(table), "{sheet}");
            }
            Err(wanted) => {
                refused += 1;
                assert_eq!(number(&printed), Some(wanted), "{sheet}");
            }
        }
    }
    assert!(texts > 500 && refused > 100, "{texts}, {refused}");
}
