//! `ask TABLE --stack HEX -k K`: one step question to a stack.

use std::ffi::OsString;

use wizbratel::{Asked, Frame, Refused, Table};

use crate::args::{Args, Opt};
use crate::frames;
use crate::help::Help;
use crate::input::{self, Kind, SHEET_OPTION, TABLE_OPTION};
use crate::labels::{Labels, SORTS_OPTION};
use crate::out;
use crate::refused::Refusal;
use crate::stop::{misuse, Status, Stop, GOOD};

const STACK: &str = "--stack";
const K: &str = "-k";
pub const HELP: Help = Help {
    usage: "ask TABLE --stack HEX -k K",
    does: "asks for one step of a stack",
    text: "\
Prints `ended`, `none`, `LABEL DEPTH HEX` with the frames after the step, or
`refused N`.
",
    options: &[
        Opt {
            name: STACK,
            value: "HEX",
            does: "the used frames, 5 bytes each, the top last: the number of the\nequation and four values",
        },
        Opt {
            name: K,
            value: "K",
            does: "the number of the step, from 0",
        },
        SORTS_OPTION,
        TABLE_OPTION,
        SHEET_OPTION,
    ],
    example: "wizbratel ask charger.table --stack 0000000000 -k 0",
};

/// Prints `ended`, `none`, `LABEL DEPTH HEX` or `refused N`.
pub fn run(words: &[OsString]) -> Result<Status, Stop> {
    let args = Args::parse(words, HELP.options)?;
    let name = args.file("TABLE")?;
    let kind = Kind::table_first(&args, name)?;
    let used = stack(&args)?;
    let Some(k) = args.number(K)? else {
        return Err(misuse("-k K is missing: the step's number, from 0"));
    };
    let answer = input::table(name, kind).and_then(|table| {
        let answer = answer(&table, &used, k, Labels::of(&args));
        answer.map_err(|refused| Stop::Refused(Refusal::of(input::shown(name), refused)))
    });
    match answer {
        Ok(line) => out::print(&line).map(|()| GOOD),
        Err(stop) => {
            if let Stop::Refused(refusal) = &stop {
                out::refused(refusal.refused())?;
            }
            Err(stop)
        }
    }
}

/// The frames that `--stack` gives.
fn stack(args: &Args) -> Result<Vec<Frame>, Stop> {
    let Some(text) = args.value(STACK) else {
        let what = "used frames in hex, 5 bytes each, the top last";
        return Err(misuse(format!("{STACK} HEX is missing: {what}")));
    };
    let text = text.to_string_lossy();
    frames::from_hex(&text).ok_or_else(|| {
        let what = "frames in hex are 10 digits each: the equation and four values";
        misuse(format!("{STACK}: `{text}`: {what}"))
    })
}

/// What the library answers, as a line.
fn answer(table: &Table, used: &[Frame], k: u64, labels: Labels) -> Result<String, Refused> {
    Ok(match table.stack(used)?.ask(k)? {
        Asked::Ended => "ended\n".to_string(),
        Asked::None => "none\n".to_string(),
        Asked::Step { label, stack } => {
            let (depth, hex) = (stack.depth(), frames::hex(stack.frames()));
            let line = format!("{} {depth} {hex}", labels.shown(&label));
            format!("{}\n", line.trim_end())
        }
    })
}
