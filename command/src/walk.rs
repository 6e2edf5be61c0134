//! `walk SHEET`: step 0 up to 8 times, as the library writes it.

use std::ffi::OsString;

use crate::args::Args;
use crate::help::Help;
use crate::input;
use crate::out;
use crate::refused::Refusal;
use crate::stop::{Status, Stop, GOOD};

pub const HELP: Help = Help {
    usage: "walk SHEET",
    does: "takes the first step of a sheet 8 times",
    text: "\
Prints a line for each step: its number, its label and the depth after it. The
last line is `ended`, `more` after 8 steps, `stuck`, or `refused` and a number.
",
    options: &[],
    example: "wizbratel walk charger.pcrl",
};

/// Prints the walk of a sheet, or that it is refused.
pub fn run(words: &[OsString]) -> Result<Status, Stop> {
    let args = Args::parse(words, HELP.options)?;
    let name = args.file("SHEET")?;
    let sheet = input::read(name)?;
    let text = wizbratel::walk(&sheet);
    match wizbratel::check(&sheet) {
        Ok(()) => out::print(&text).map(|()| GOOD),
        Err(refused) => {
            out::offer(&text)?;
            let name = input::shown(name);
            Err(Stop::Refused(Refusal::of_sheet(name, &sheet, refused)))
        }
    }
}
