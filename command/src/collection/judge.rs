//! One sheet beside its table and its mark.

use super::earlier::is_earlier;
use super::mark::{self, Mark};
use super::search::Sheet;
use crate::refused::Refusal;
use std::fs::{self, File};
use std::io::{self, Read};
use std::os::unix::fs::MetadataExt;
use std::path::Path;
use wizbratel::Table;

/// One byte more than the longest sheet and the longest table file: enough to tell that a file is too long.
const SHEET_BYTES: u64 = 4097;
const TABLE_BYTES: u64 = 65537;

/// How a sheet stands to what is beside it.
pub enum Standing {
    Right,
    /// The table is not the sheet's own.
    Wrong(Wrong, Made),
    /// The table is the sheet's own, but a mark stands beside it.
    Marked,
    Refused(KeptOut),
    Unread(io::Error),
}

/// A sheet that is refused.
pub struct KeptOut {
    pub refusal: Refusal,
    /// Whether a table stands beside it all the same.
    pub has_table: bool,
    pub mark: Mark,
    /// The permissions of the sheet.
    pub mode: u32,
}

/// What is wrong with the file in the table's place.
#[derive(Debug)]
pub enum Wrong {
    Missing,
    /// It is the sheet's table without the names of sorts.
    Earlier,
    Differs,
    Unread(io::Error),
}

/// A sheet's own table, and the permissions of the sheet.
pub struct Made {
    pub table: Table,
    pub mode: u32,
}

pub fn judge(sheet: &Sheet) -> Standing {
    let (bytes, mode) = match read(&sheet.path, SHEET_BYTES) {
        Ok(read) => read,
        Err(error) => return Standing::Unread(error),
    };
    let mark = mark::look(&sheet.mark);
    let table = match Table::make(&bytes) {
        Ok(table) => table,
        Err(refused) => {
            return Standing::Refused(KeptOut {
                refusal: Refusal::of_sheet(sheet.path.to_string_lossy(), &bytes, refused),
                has_table: fs::symlink_metadata(&sheet.table).is_ok() && !sheet.table.is_dir(),
                mark,
                mode,
            })
        }
    };
    let wrong = match read(&sheet.table, TABLE_BYTES) {
        Ok((file, _)) if file == table.file() => {
            return match mark {
                Mark::Of(..) => Standing::Marked,
                Mark::Missing | Mark::Other => Standing::Right,
            }
        }
        Ok((file, _)) if is_earlier(&file, &table) => Wrong::Earlier,
        Ok(_) => Wrong::Differs,
        Err(error) if error.kind() == io::ErrorKind::NotFound => Wrong::Missing,
        Err(error) => Wrong::Unread(error),
    };
    Standing::Wrong(wrong, Made { table, mode })
}

/// The first bytes of a file, and its mode. A pipe or a device is not opened: it could wait for ever.
pub fn read(path: &Path, limit: u64) -> io::Result<(Vec<u8>, u32)> {
    let about = fs::metadata(path)?;
    if !about.is_file() {
        return Err(io::Error::other("it is not a file"));
    }
    let mut bytes = Vec::new();
    File::open(path)?.take(limit).read_to_end(&mut bytes)?;
    Ok((bytes, about.mode()))
}
