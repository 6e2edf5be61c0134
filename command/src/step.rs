//! `step SHEET|TABLE`: steps taken by hand or by a script. On a terminal the steps are listed before every prompt.

use std::ffi::OsString;
use std::io::{BufRead, IsTerminal, Write};

use wizbratel::{Frame, Stack, Table};

use crate::args::{Args, Opt};
use crate::help::Help;
use crate::input::{self, is_standard, Kind, SHEET_OPTION, TABLE_OPTION};
use crate::labels::{Labels, SORTS_OPTION};
use crate::naming::Naming;
use crate::out::written;
use crate::random::Random;
use crate::refused::Refusal;
use crate::stop::{misuse, say, Status, Stop, GOOD, REFUSED};
use crate::words::{Word, Words};

const SEED: &str = "--seed";
pub const HELP: Help = Help {
    usage: "step SHEET|TABLE [--seed N]",
    does: "steps by hand, or by a script on standard input",
    text: "\
Reads words from standard input: a number takes that step, u undoes, r takes a
step at random, l lists the steps, q ends. On a terminal the steps are listed
before each prompt. A step is printed as its number, its label and the depth
after it; where none was taken stands `ended`, `none` or `refused 16`. A list
has the stack, the top frame first: of a sheet a process with its parameters, as
in Charging(0), or a new equation's number and its part, as in 2:unplug.
",
    options: &[
        Opt {
            name: SEED,
            value: "N",
            does: "steps at random are the same each time",
        },
        SORTS_OPTION,
        TABLE_OPTION,
        SHEET_OPTION,
    ],
    example: "echo 0 0 l | wizbratel step charger.pcrl",
};

/// Steps that are listed; the others can be taken too.
const LISTED: usize = 40;

const COMMANDS: &str =
    "a number takes that step; u undoes, r takes one at random, l lists the steps, q ends";

/// Reads commands from standard input until `q` or its end.
pub fn run(words: &[OsString]) -> Result<Status, Stop> {
    let args = Args::parse(words, HELP.options)?;
    let name = args.file("SHEET or TABLE")?;
    if is_standard(name) {
        let text = "step reads commands from standard input: the sheet needs a name";
        return Err(misuse(text));
    }
    let (table, naming) = input::named(name, Kind::of(&args, name)?)?;
    let session = Session {
        name: input::shown(name),
        table: &table,
        naming: &naming,
        stack: table.start(),
        before: Vec::new(),
        random: Random::new(args.number(SEED)?),
        labels: Labels::of(&args),
        terminal: std::io::stdin().is_terminal(),
        listed: false,
        out: std::io::stdout().lock(),
        status: GOOD,
    };
    session.follow(std::io::stdin().lock())
}

/// Where somebody stands who steps through a table.
struct Session<'t, W> {
    /// The file's name in messages.
    name: String,
    table: &'t Table,
    naming: &'t Naming,
    stack: Stack<'t>,
    /// The used frames before each step taken.
    before: Vec<Box<[Frame]>>,
    random: Random,
    labels: Labels,
    terminal: bool,
    /// Whether `l` was the last command: the prompt then need not list again.
    listed: bool,
    out: W,
    status: Status,
}

impl<W: Write> Session<'_, W> {
    /// Follows the commands of an input to its end.
    fn follow(mut self, input: impl BufRead) -> Result<Status, Stop> {
        let mut words = Words::new(input);
        self.prompt()?;
        loop {
            let word = words
                .read()
                .map_err(|error| misuse(format!("standard input cannot be read: {error}")))?;
            match word {
                Some(Word::Line) => self.prompt()?,
                Some(Word::Text(text)) if text != "q" => self.command(&text)?,
                _ => break,
            }
        }
        written(self.out.flush())?;
        Ok(self.status)
    }

    /// On a terminal, the steps and a prompt.
    fn prompt(&mut self) -> Result<(), Stop> {
        if !self.terminal {
            return Ok(());
        }
        if !std::mem::take(&mut self.listed) {
            self.list()?;
        }
        written(write!(self.out, "> ").and_then(|()| self.out.flush()))
    }

    /// Follows one command. One that is unknown ends a script, but not a person's steps.
    fn command(&mut self, text: &str) -> Result<(), Stop> {
        self.listed = text == "l";
        match text {
            "u" => self.undo(),
            "r" => self.chance(),
            "l" => self.list(),
            "?" | "h" => self.line(COMMANDS),
            _ => match text.parse() {
                Ok(k) => self.take(k),
                Err(_) if self.terminal => {
                    say(&format!("`{text}`? {COMMANDS}"));
                    Ok(())
                }
                Err(_) => Err(misuse(format!("`{text}`: {COMMANDS}"))),
            },
        }
    }

    /// Takes step k: its number on this way, the label, the depth after it; else why it was not taken.
    fn take(&mut self, k: u64) -> Result<(), Stop> {
        let before = self.stack.frames().into();
        match self.stack.take(k) {
            Ok(Some(label)) => {
                self.before.push(before);
                let (number, depth) = (self.before.len(), self.stack.depth());
                let label = self.labels.shown(&label);
                self.line(&format!("{number} {label} {depth}"))
            }
            Ok(None) if self.stack.is_ended() => self.line("ended"),
            Ok(None) => self.line("none"),
            Err(refused) => {
                if !self.terminal {
                    self.status = REFUSED;
                }
                say(&format!("{}: {refused}", self.name));
                self.line(&format!("refused {}", refused.number()))
            }
        }
    }

    /// Takes one of all steps, each as likely as another.
    fn chance(&mut self) -> Result<(), Stop> {
        match self.stack.step_count() {
            0 => self.take(0),
            count => {
                let k = self.random.below(count);
                self.take(k)
            }
        }
    }

    /// Goes back to the stack before the last step.
    fn undo(&mut self) -> Result<(), Stop> {
        let Some(frames) = self.before.pop() else {
            return self.line("none");
        };
        let stack = self.table.stack(&frames);
        self.stack = stack.map_err(|refused| Stop::Refused(Refusal::of("a stack", refused)))?;
        self.line(&format!("undone {}", self.stack.depth()))
    }

    /// The stack, top first, and its steps.
    fn list(&mut self) -> Result<(), Stop> {
        if self.stack.is_ended() {
            return self.line("ended");
        }
        let depth = self.stack.depth();
        let shown = self.naming.stack(self.stack.frames());
        self.line(&format!("depth {depth}: {shown}"))?;
        let mut steps = self.stack.steps();
        let mut none = true;
        for step in steps.by_ref().take(LISTED) {
            none = false;
            let k = step.k;
            self.line(&match step.way {
                Ok((label, next)) => {
                    format!("  {k} {} {}", self.labels.shown(&label), next.depth())
                }
                Err(refused) => format!("  {k} refused {}", refused.number()),
            })?;
        }
        if none {
            self.line("  stuck: no step")?;
        }
        if steps.next().is_some() {
            let count = self.stack.step_count();
            self.line(&format!("  .. {} is the last", count - 1))?;
        }
        Ok(())
    }

    /// A line of output.
    fn line(&mut self, text: &str) -> Result<(), Stop> {
        written(writeln!(self.out, "{text}"))
    }
}
