//! What is said of a refusal on standard error: of a sheet the place, the line and the words, in the manner of rustc;
//! or of anything a line of JSON. `--format` and `--color` say how, and stand with any command.

use std::ffi::OsString;
use std::fmt::Write;
use std::io::IsTerminal;
use std::sync::OnceLock;

use wizbratel::{Diagnostic, Refused};

use crate::args::{Args, Opt};
use crate::stop::{misuse, Stop};

const FORMAT: &str = "--format";
const COLOR: &str = "--color";

/// The options that stand with any command.
pub const OPTIONS: &[Opt] = &[
    Opt {
        name: FORMAT,
        value: "F",
        does: "json: what is refused is said as a line of JSON, for editors;\ntext, unless it is given",
    },
    Opt {
        name: COLOR,
        value: "WHEN",
        does: "always, never, or auto: on a terminal, unless NO_COLOR is set",
    },
];

/// How refusals are said.
#[derive(Clone, Copy, Debug, Default)]
struct Manner {
    json: bool,
    color: bool,
}

static MANNER: OnceLock<Manner> = OnceLock::new();

/// Takes `--format` and `--color` from the words and keeps what they say; all other words.
pub fn take_options(words: &[OsString]) -> Result<Vec<OsString>, Stop> {
    let (mut own, mut others) = (Vec::new(), Vec::new());
    let mut words = words.iter();
    while let Some(word) = words.next() {
        let text = word.to_str().unwrap_or_default();
        match text.split_once('=').unwrap_or((text, "")).0 {
            "--" => {
                others.push(word.clone());
                others.extend(words.by_ref().cloned());
            }
            FORMAT | COLOR => {
                own.push(word.clone());
                let behind = (!text.contains('=')).then(|| words.next()).flatten();
                own.extend(behind.cloned());
            }
            _ => others.push(word.clone()),
        }
    }
    let args = Args::parse(&own, OPTIONS)?;
    let manner = Manner {
        json: one_of(&args, FORMAT, &["text", "json"])? == 1,
        color: match one_of(&args, COLOR, &["auto", "always", "never"])? {
            0 => is_for_colors(),
            given => given == 1,
        },
    };
    let _ = MANNER.set(manner);
    Ok(others)
}

/// Which of these an option says; the first if it is not given.
fn one_of(args: &Args, name: &str, values: &[&str]) -> Result<usize, Stop> {
    let Some(value) = args.value(name) else {
        return Ok(0);
    };
    let place = values.iter().position(|known| *known == value);
    place.ok_or_else(|| {
        let (value, values) = (value.to_string_lossy(), values.join(", "));
        misuse(format!("{name}: `{value}` is none of {values}"))
    })
}

/// Whether standard error is a terminal whose user wants colours.
fn is_for_colors() -> bool {
    let set = |name| std::env::var_os(name).is_some_and(|value| !value.is_empty());
    let dumb = std::env::var_os("TERM").is_some_and(|terminal| terminal == "dumb");
    std::io::stderr().is_terminal() && !set("NO_COLOR") && !dumb
}

/// What is said of a refusal. Of a sheet the bytes are given; the place is told where it is found, and else what the
/// library says alone.
pub fn said(name: &str, refused: Refused, sheet: Option<&[u8]>) -> String {
    let manner = MANNER.get().copied().unwrap_or_default();
    let found = sheet.and_then(Diagnostic::of);
    let more = format!("`wizbratel explain {}` says more", refused.number());
    match found {
        _ if manner.json => json(name, refused, found.as_ref()),
        Some(found) => format!("{}\n{more}\n", found.shown(name, manner.color)),
        None => format!("wizbratel: {name}: {refused} ({more})\n"),
    }
}

/// The same in a line of its own words: the place, what is wrong, and the help.
pub fn in_a_line(refused: Refused, sheet: Option<&[u8]>) -> String {
    let Some(found) = sheet.and_then(Diagnostic::of) else {
        return refused.question().to_string();
    };
    let (line, column, message) = (found.line(), found.column(), found.message());
    let help = found
        .help()
        .map_or(String::new(), |help| format!("; {help}"));
    format!("line {line}, column {column}: {message}{help}")
}

/// A line of JSON; without a place its numbers are null.
fn json(name: &str, refused: Refused, found: Option<&Diagnostic>) -> String {
    let number =
        |number: Option<usize>| number.map_or("null".to_string(), |number| number.to_string());
    let places = [
        ("line", found.map(Diagnostic::line)),
        ("column", found.map(Diagnostic::column)),
        ("end_line", found.map(|found| found.end().0)),
        ("end_column", found.map(|found| found.end().1)),
    ];
    let places: String = places
        .map(|(key, value)| format!("\"{key}\":{},", number(value)))
        .concat();
    let message = found.map_or(refused.question().words(), Diagnostic::message);
    let help = found
        .and_then(Diagnostic::help)
        .map_or("null".to_string(), quoted);
    let notes = found
        .into_iter()
        .flat_map(Diagnostic::notes)
        .map(|(line, column, words)| {
            format!(
                "{{\"line\":{line},\"column\":{column},\"message\":{}}}",
                quoted(words)
            )
        });
    let notes: Vec<String> = notes.collect();
    format!(
        "{{\"file\":{},{places}\"question\":{},\"message\":{},\"help\":{help},\"notes\":[{}]}}\n",
        quoted(name),
        refused.number(),
        quoted(message),
        notes.join(",")
    )
}

/// A text as a string of JSON.
fn quoted(text: &str) -> String {
    let mut quoted = String::from("\"");
    for letter in text.chars() {
        match letter {
            '"' | '\\' => quoted.extend(['\\', letter]),
            letter if letter.is_control() => {
                let _ = write!(quoted, "\\u{:04x}", u32::from(letter));
            }
            letter => quoted.push(letter),
        }
    }
    quoted + "\""
}
