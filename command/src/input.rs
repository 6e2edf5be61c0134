//! Files read: sheets and table files, by name or from standard input.

use std::ffi::OsStr;
use std::fs::File;
use std::io::{self, Read};
use std::path::Path;

use wizbratel::{Table, MAX_FILE};

use crate::args::{Args, Opt};
use crate::naming::Naming;
use crate::output::is_standard_output;
use crate::refused::Refusal;
use crate::stop::{misuse, Stop};

/// So many bytes are read, one more than the longest right file has. The first question to a sheet and to a table file
/// is for its length, so a longer one gets the same answer, whatever stands behind these bytes.
const READ: u64 = MAX_FILE as u64 + 1;

/// The options that say what a file is.
pub const TABLE: &str = "--table";
pub const SHEET: &str = "--sheet";
pub const TABLE_OPTION: Opt = Opt {
    name: TABLE,
    value: "",
    does: "all files are table files, whatever their names",
};
pub const SHEET_OPTION: Opt = Opt {
    name: SHEET,
    value: "",
    does: "all files are sheets, whatever their names",
};

/// What a file is taken for.
#[derive(Clone, Copy, Debug, PartialEq, Eq)]
pub enum Kind {
    Sheet,
    Table,
}

impl Kind {
    /// What the options say of all files, else what the name says: a name that ends in `.table` is a table file's.
    pub fn of(args: &Args, name: &OsStr) -> Result<Kind, Stop> {
        match (args.has(TABLE), args.has(SHEET)) {
            (true, true) => Err(misuse(format!("{TABLE} and {SHEET} exclude each other"))),
            (true, false) => Ok(Kind::Table),
            (false, true) => Ok(Kind::Sheet),
            (false, false) if name.as_encoded_bytes().ends_with(b".table") => Ok(Kind::Table),
            (false, false) => Ok(Kind::Sheet),
        }
    }

    /// The same where a table is wanted: only the option makes a file a sheet.
    pub fn table_first(args: &Args, name: &OsStr) -> Result<Kind, Stop> {
        match Kind::of(args, name)? {
            Kind::Sheet if args.has(SHEET) => Ok(Kind::Sheet),
            _ => Ok(Kind::Table),
        }
    }
}

/// Whether the name stands for standard input or output.
pub fn is_standard(name: &OsStr) -> bool {
    name == "-"
}

/// The name of a file in messages.
pub fn shown(name: &OsStr) -> String {
    if is_standard(name) {
        "standard input".to_string()
    } else {
        Path::new(name).display().to_string()
    }
}

/// The bytes of a file, or of standard input; of a long one only as many as are looked at.
pub fn read(name: &OsStr) -> Result<Vec<u8>, Stop> {
    let read = if is_standard(name) {
        start(io::stdin().lock())
    } else {
        File::open(name).and_then(|file| {
            if is_standard_output(&file.metadata()?) {
                return Err(io::Error::other("standard output goes to it"));
            }
            start(file)
        })
    };
    read.map_err(|error| misuse(format!("{} cannot be read: {error}", shown(name))))
}

/// The first bytes of an input.
fn start(input: impl Read) -> io::Result<Vec<u8>> {
    let mut bytes = Vec::new();
    input.take(READ).read_to_end(&mut bytes)?;
    Ok(bytes)
}

/// The table of a sheet or of a table file.
pub fn table(name: &OsStr, kind: Kind) -> Result<Table, Stop> {
    taken(name, kind, &read(name)?)
}

/// The same, with what its equations and variables are called.
pub fn named(name: &OsStr, kind: Kind) -> Result<(Table, Naming), Stop> {
    let bytes = read(name)?;
    let table = taken(name, kind, &bytes)?;
    let sheet = (kind == Kind::Sheet).then_some(&bytes[..]);
    let naming = Naming::of(&table, sheet);
    let naming = naming.ok_or_else(|| misuse(format!("{} cannot be shown", shown(name))))?;
    Ok((table, naming))
}

/// The table of these bytes, or what is said of them.
fn taken(name: &OsStr, kind: Kind, bytes: &[u8]) -> Result<Table, Stop> {
    let table = match kind {
        Kind::Sheet => Table::make(bytes),
        Kind::Table => Table::read(bytes),
    };
    table.map_err(|refused| {
        Stop::Refused(match kind {
            Kind::Sheet => Refusal::of_sheet(shown(name), bytes, refused),
            Kind::Table => Refusal::of(shown(name), refused),
        })
    })
}
