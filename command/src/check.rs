//! `check FILE..`: sheets and table files, each with what the library says of it.

use std::ffi::{OsStr, OsString};

use crate::args::Args;
use crate::help::Help;
use crate::input::{self, Kind, SHEET_OPTION, TABLE_OPTION};
use crate::out;
use crate::refused::Refusal;
use crate::stop::{misuse, worst, Status, Stop};

pub const HELP: Help = Help {
    usage: "check FILE..",
    does: "checks sheets and table files",
    text: "\
Puts each file its questions, 1 to 10 for a sheet and 12 to 14 for a table file,
and says whether it is accepted, or the first question that it fails.
",
    options: &[TABLE_OPTION, SHEET_OPTION],
    example: "wizbratel check charger.pcrl charger.table",
};

/// Checks every file; the status is that of the worst.
pub fn run(words: &[OsString]) -> Result<Status, Stop> {
    let args = Args::parse(words, HELP.options)?;
    if args.files().is_empty() {
        return Err(misuse("FILE is missing"));
    }
    let kinds = args.files().iter().map(|name| Kind::of(&args, name));
    let kinds: Vec<Kind> = kinds.collect::<Result<_, _>>()?;
    worst(args.files().iter().zip(kinds).map(|(name, kind)| {
        check(name, kind)?;
        accepted(name, kind)
    }))
}

/// Says that a file is accepted, and what it was taken for.
fn accepted(name: &OsStr, kind: Kind) -> Result<(), Stop> {
    let what = match kind {
        Kind::Sheet => "sheet",
        Kind::Table => "table",
    };
    out::offer(&format!("{}: {what} accepted\n", input::shown(name)))
}

/// Puts one file its questions.
fn check(name: &OsStr, kind: Kind) -> Result<(), Stop> {
    if kind == Kind::Table {
        return input::table(name, kind).map(|_| ());
    }
    let sheet = input::read(name)?;
    wizbratel::check(&sheet)
        .map_err(|refused| Stop::Refused(Refusal::of_sheet(input::shown(name), &sheet, refused)))
}
