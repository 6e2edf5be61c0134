//! A table made in a lent output that stands between canaries.

use reader::limits::FILE_BYTES;
use reader::Refusal;

use crate::output::written;

/// The file that the library makes of a sheet in an output of this length, or the number of the question that fails.
/// Asserts that nothing else was written.
pub fn made(sheet: &[u8], room: usize) -> Result<Vec<u8>, Refusal> {
    let text = || String::from_utf8_lossy(sheet).into_owned();
    written(room, text, |out, length| {
        crate::make_table(sheet, out, length)
    })
}

/// The same in an output that is long enough for every file.
pub fn made_whole(sheet: &[u8]) -> Result<Vec<u8>, Refusal> {
    made(sheet, FILE_BYTES)
}

/// Both make the same of a sheet in an output of this length; the answer's number.
pub fn same(sheet: &[u8], room: usize, what: &str) -> u8 {
    let wanted = reader::make_table_within(sheet, room);
    let answer = made(sheet, room);
    let number = wanted.as_ref().err().copied().unwrap_or(0);
    if answer != wanted {
        let text = String::from_utf8_lossy(sheet);
        let got = answer.err().unwrap_or(0);
        panic!("{what}: {got}, not {number}, or another file: {text}");
    }
    number
}
