//! Why a command stops early, its exit status, and messages on standard error.

use std::io::Write;

use crate::refused::Refusal;

/// An exit status.
pub type Status = u8;

/// All was done.
pub const GOOD: Status = 0;
/// A sheet, a table file or a stack was refused.
pub const REFUSED: Status = 1;
/// Arguments that are no use, and files that cannot be read or written.
pub const MISUSE: Status = 2;

/// Why a command stops early.
#[derive(Debug)]
pub enum Stop {
    /// A sheet, a table file or a stack was refused.
    Refused(Refusal),
    /// Misuse, or a file that cannot be read or written.
    Misuse(String),
    /// Nobody reads standard output any more, which is no fault.
    Closed,
}

/// Misuse, in words.
pub fn misuse(text: impl Into<String>) -> Stop {
    Stop::Misuse(text.into())
}

impl Stop {
    /// The exit status.
    pub fn status(&self) -> Status {
        match self {
            Stop::Refused(_) => REFUSED,
            Stop::Misuse(_) => MISUSE,
            Stop::Closed => GOOD,
        }
    }

    /// Says it on standard error, where anything is said; that nobody reads it is no fault.
    pub fn say(&self) {
        match self {
            Stop::Refused(refusal) => {
                let _ = std::io::stderr().write_all(refusal.said().as_bytes());
            }
            Stop::Misuse(text) => say(text),
            Stop::Closed => {}
        }
    }
}

/// Does all of several things, says what stops each, and gives the status of the worst.
pub fn worst(done: impl Iterator<Item = Result<(), Stop>>) -> Result<Status, Stop> {
    let status = |done: Result<(), Stop>| match done {
        Ok(()) => GOOD,
        Err(stop) => {
            stop.say();
            stop.status()
        }
    };
    Ok(done.map(status).max().unwrap_or(GOOD))
}

/// A message on standard error; that nobody reads it is no fault either.
pub fn say(text: &str) {
    let _ = writeln!(std::io::stderr(), "wizbratel: {text}");
}
