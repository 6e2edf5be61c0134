//! Marks: beside a sheet `NAME.pcrl` that is refused stands `NAME.refused`, whose first line is `refused` and the number
//! of the question that it fails; where and why stand behind it. And tables of such a sheet, set aside.

use std::ffi::OsString;
use std::fs;
use std::io;
use std::path::{Path, PathBuf};

use super::judge::read;
use crate::refused::Refusal;

/// So many bytes of a mark are read; none is as long.
const MARK_BYTES: u64 = 65537;

/// What stands in the place of a mark.
pub enum Mark {
    Missing,
    /// A mark: the question's number, and its bytes.
    Of(u8, Vec<u8>),
    /// Something else, or what cannot be read; it is left alone.
    Other,
}

/// Looks at the place of a mark.
pub fn look(path: &Path) -> Mark {
    match read(path, MARK_BYTES) {
        Ok((bytes, _)) => number(&bytes).map_or(Mark::Other, |number| Mark::Of(number, bytes)),
        Err(error) if error.kind() == io::ErrorKind::NotFound => Mark::Missing,
        Err(_) => Mark::Other,
    }
}

/// The number in the first line of a mark.
fn number(bytes: &[u8]) -> Option<u8> {
    let first = bytes.split(|&byte| byte == b'\n').next()?;
    let digits = std::str::from_utf8(first).ok()?.strip_prefix("refused ")?;
    digits
        .parse()
        .ok()
        .filter(|number| (1..=10).contains(number))
}

/// The mark of a refused sheet.
pub fn text(refusal: &Refusal) -> String {
    format!(
        "refused {}\n{}",
        refusal.refused().number(),
        refusal.lines()
    )
}

/// Renames `NAME.table` to `NAME.table.old`, and says so. Another file of that name is renamed before: nothing is lost.
pub fn set_aside(table: &Path) -> io::Result<PathBuf> {
    fs::symlink_metadata(table)?;
    let old = with(table, ".old");
    if fs::symlink_metadata(&old).is_ok() && !same(table, &old) {
        let mut numbered = (1_u64..).map(|number| with(&old, &format!(".{number}")));
        let free = numbered.find(|path| fs::symlink_metadata(path).is_err());
        fs::rename(&old, free.ok_or(io::ErrorKind::AlreadyExists)?)?;
    }
    fs::rename(table, &old)?;
    Ok(old)
}

/// Whether two files have the same bytes.
fn same(one: &Path, other: &Path) -> bool {
    let (Ok(first), Ok(second)) = (fs::metadata(one), fs::metadata(other)) else {
        return false;
    };
    let alike = first.is_file() && second.is_file() && first.len() == second.len();
    alike && matches!((fs::read(one), fs::read(other)), (Ok(a), Ok(b)) if a == b)
}

/// A path with more behind its name.
fn with(path: &Path, more: &str) -> PathBuf {
    let mut name = OsString::from(path);
    name.push(more);
    name.into()
}
