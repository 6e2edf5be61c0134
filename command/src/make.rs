//! `make SHEET.. [-o TABLE]`: the table files of sheets.

use std::ffi::{OsStr, OsString};
use std::fs;
use std::os::unix::fs::MetadataExt;
use std::path::Path;

use crate::args::{Args, Opt};
use crate::help::Help;
use crate::input::{self, is_standard, Kind};
use crate::output;
use crate::stop::{misuse, worst, Status, Stop};

const OUTPUT: &str = "-o";
pub const HELP: Help = Help {
    usage: "make SHEET.. [-o TABLE]",
    does: "makes the table files of sheets",
    text: "\
Makes the table file of each sheet, beside it: that of NAME.pcrl is NAME.table;
of standard input it goes to standard output. A refused sheet leaves the table
that is there, and the others are made. A table that is there is replaced, and
so is a link in its place; a pipe or a device is written into.
",
    options: &[Opt {
        name: OUTPUT,
        value: "TABLE",
        does: "where the table of the only sheet goes",
    }],
    example: "wizbratel make charger.pcrl -o bench.table",
};

/// Who may read and write a table, where its sheet has no permissions of its own.
const ALL: u32 = 0o666;

/// Makes each table, and writes it beside its sheet or where `-o` says; nothing if one would go over a sheet.
pub fn run(words: &[OsString]) -> Result<Status, Stop> {
    let args = Args::parse(words, HELP.options)?;
    let sheets: Vec<&OsStr> = args.files().iter().map(OsString::as_os_str).collect();
    let outputs = match (&sheets[..], args.value(OUTPUT)) {
        ([], _) => return Err(misuse("SHEET is missing")),
        ([_], Some(output)) => vec![output.to_owned()],
        (_, Some(_)) => return Err(misuse(format!("{OUTPUT} is for one sheet alone"))),
        (_, None) => sheets.iter().map(|sheet| beside(sheet)).collect(),
    };
    output::apart(&sheets, &outputs, ["table", "sheet"])?;
    let made = sheets.iter().zip(&outputs);
    worst(made.map(|(sheet, output)| make(sheet, output)))
}

/// The table's place beside its sheet; of standard input, standard output.
fn beside(sheet: &OsStr) -> OsString {
    match is_standard(sheet) {
        true => sheet.to_owned(),
        false => Path::new(sheet).with_extension("table").into(),
    }
}

/// Makes one table.
fn make(sheet: &OsStr, output: &OsStr) -> Result<(), Stop> {
    let table = input::table(sheet, Kind::Sheet)?;
    output::write(output, table.file(), mode(sheet))
}

/// The permissions of a table: those of its sheet.
fn mode(sheet: &OsStr) -> u32 {
    match fs::metadata(sheet) {
        Ok(about) if about.is_file() && !is_standard(sheet) => about.mode(),
        _ => ALL,
    }
}
