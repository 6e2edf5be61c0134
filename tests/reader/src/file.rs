//! Table files: made from a sheet (questions 1 to 11), and read (questions 12 to 14).

use crate::blocks::{from_blocks, to_blocks, STREAM_PART};
use crate::check::check_sheet;
use crate::decode::decode;
use crate::limits::FILE_BYTES;
use crate::linear::linear_table;
use crate::question::{self, put, Refusal};
use crate::stream::encode;
use crate::table::Table;

/// The table file of a sheet, written to an output that is always long enough.
pub fn make_table(sheet: &[u8]) -> Result<Vec<u8>, Refusal> {
    make_table_within(sheet, FILE_BYTES)
}

/// The table file of a sheet, written to a lent output of this many bytes.
pub fn make_table_within(sheet: &[u8], lent: usize) -> Result<Vec<u8>, Refusal> {
    let table = linear_table(&check_sheet(sheet)?)?;
    let file = encode_file(&table);
    put(question::OUTPUT, file.len() <= lent)?;
    Ok(file)
}

/// The file of a table.
pub fn encode_file(table: &Table) -> Vec<u8> {
    to_blocks(&encode(table))
}

/// The table of a file, or the number of the first question failed.
pub fn read_table(file: &[u8]) -> Result<Table, Refusal> {
    let stream = from_blocks(file)?;
    let (table, length) = decode(&stream).ok_or(question::STREAM)?;
    let fewest_blocks = stream.len() - length < STREAM_PART;
    let zeros_after = stream[length..].iter().all(|&byte| byte == 0);
    put(question::STREAM, fewest_blocks && zeros_after)?;
    Ok(table)
}
