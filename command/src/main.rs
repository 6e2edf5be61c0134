//! The command `wizbratel`: tables of process sheets made, checked and stepped through. What a sheet, a table or a
//! stack is, the proved library decides; here are arguments, files and texts.

#![forbid(unsafe_code)]

mod args;
mod ask;
mod check;
mod collection;
mod data;
mod example;
mod explain;
mod frames;
mod graph;
mod help;
mod input;
mod labels;
mod make;
mod naming;
#[path = "../../bindings/rust/src/diagnostic/nearest.rs"]
mod nearest;
mod out;
mod output;
mod print;
mod random;
mod refusal;
mod refused;
mod replace;
mod show;
mod step;
mod stop;
mod stream;
mod walk;
mod words;

use std::ffi::OsString;
use std::process::ExitCode;

use help::Help;
use nearest::did_you_mean;
use stop::{misuse, Status, Stop, GOOD};

/// What a word of the command does with the words behind it.
type Run = fn(&[OsString]) -> Result<Status, Stop>;

/// The words of the command, in the order in which the help lists them.
const COMMANDS: &[(Help, Run)] = &[
    (make::HELP, make::run),
    (check::HELP, check::run),
    (walk::HELP, walk::run),
    (print::HELP, print::run),
    (show::HELP, show::run),
    (explain::HELP, explain::run),
    (step::HELP, step::run),
    (ask::HELP, ask::run),
    (graph::HELP, graph::run),
    (collection::RENEW, collection::renew),
    (collection::AUDIT, collection::audit),
];

fn main() -> ExitCode {
    let words: Vec<OsString> = std::env::args_os().skip(1).collect();
    match refusal::take_options(&words).and_then(|words| run(&words)) {
        Ok(status) => status.into(),
        Err(stop) => {
            stop.say();
            stop.status().into()
        }
    }
}

/// Runs the command that the first word names on the words behind it.
fn run(words: &[OsString]) -> Result<Status, Stop> {
    let Some((name, rest)) = words.split_first() else {
        return Err(misuse("no command; `wizbratel help` lists them"));
    };
    match name.to_str().unwrap_or_default() {
        "help" | "--help" | "-h" => help(rest).and_then(|text| out::print(&text))?,
        "version" | "--version" | "-V" => out::print(help::VERSION)?,
        _ => {
            let (help, run) = find(name)?;
            let options = rest.iter().take_while(|word| *word != "--");
            if !options
                .into_iter()
                .any(|word| word == "--help" || word == "-h")
            {
                return run(rest);
            }
            out::print(&help.shown())?;
        }
    }
    Ok(GOOD)
}

/// What `help` prints: all words, one of them, or the man page.
fn help(words: &[OsString]) -> Result<String, Stop> {
    match words {
        [] => Ok(help::all()),
        [word] if word == "--man" => Ok(help::man()),
        [word] => find(word).map(|(help, _)| help.shown()),
        _ => Err(misuse("help takes one word at most")),
    }
}

/// The word of the command with this name.
fn find(name: &OsString) -> Result<&'static (Help, Run), Stop> {
    let mut known = COMMANDS.iter();
    let found = known.find(|(help, _)| *name == help.name());
    found.ok_or_else(|| {
        let name = name.to_string_lossy();
        let names = COMMANDS.iter().map(|(help, _)| help.name());
        let near = did_you_mean(&name, names.chain(["help", "version"]));
        let near = near.map_or(String::new(), |near| format!("{near} "));
        misuse(format!(
            "no command `{name}`; {near}`wizbratel help` lists them"
        ))
    })
}
