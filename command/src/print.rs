//! `print TABLE`: a table as a sheet.

use std::ffi::OsString;
use std::io::IsTerminal;

use crate::args::Args;
use crate::help::Help;
use crate::input::{self, Kind, SHEET_OPTION, TABLE_OPTION};
use crate::out;
use crate::refused::Refusal;
use crate::stop::{Status, Stop, GOOD};

pub const HELP: Help = Help {
    usage: "print TABLE",
    does: "prints a table as a sheet",
    text: "\
Prints a sheet whose table is the same, byte for byte; that of a table without
the names of its sorts has them. A line feed is put behind it on a terminal
only.
",
    options: &[TABLE_OPTION, SHEET_OPTION],
    example: "wizbratel print charger.table >again.pcrl",
};

/// Prints the text. A line feed behind it, which a text as long as the longest sheet has no room for, is for people.
pub fn run(words: &[OsString]) -> Result<Status, Stop> {
    let args = Args::parse(words, HELP.options)?;
    let name = args.file("TABLE")?;
    let table = input::table(name, Kind::table_first(&args, name)?)?;
    let printed = table.print();
    let mut text =
        printed.map_err(|refused| Stop::Refused(Refusal::of(input::shown(name), refused)))?;
    if std::io::stdout().is_terminal() {
        text.push('\n');
    }
    out::print(&text).map(|()| GOOD)
}
