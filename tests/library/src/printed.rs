//! A table printed in a lent output that stands between canaries.

use reader::limits::SHEET_BYTES;
use reader::{Layout, Refusal};

use crate::made::made_whole;
use crate::output::written;

/// The text that the library prints of a table file in an output of this length, or the number of the question that
/// fails. Asserts that nothing else was written, to the file neither.
pub fn printed(file: &[u8], room: usize) -> Result<String, Refusal> {
    let lent = file.to_vec();
    let what = || format!("a file of {} bytes", file.len());
    let text = written(room, what, |out, length| {
        crate::print_table(&lent, out, length)
    })?;
    assert!(lent == file, "another file afterwards");
    Ok(String::from_utf8(text).expect("bytes of ASCII"))
}

/// The same in an output that is long enough for every text.
pub fn printed_whole(file: &[u8]) -> Result<String, Refusal> {
    printed(file, SHEET_BYTES)
}

/// Both print the same of a file in an output of this length, and the library reads its text back byte for byte, with
/// the names of sorts if the file has none; the answer's number.
pub fn same(file: &[u8], room: usize, what: &str) -> u8 {
    let wanted = reader::print_table_within(file, room);
    assert_eq!(printed(file, room), wanted, "{what}");
    match wanted {
        Ok(text) => {
            let again = made_whole(text.as_bytes());
            let table = reader::read_table(file).expect("a table");
            let wanted = match table.layout {
                Layout::Named => file.to_vec(),
                Layout::Older => reader::encode_file(&table.renewed()),
            };
            assert!(again == Ok(wanted), "{what}, read back: {text}");
            0
        }
        Err(number) => number,
    }
}
