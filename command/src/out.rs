//! Standard output: what cannot be written is a fault, unless nobody reads it any more.

use std::io::{ErrorKind, Result as Io, Write};

use wizbratel::Refused;

use crate::stop::{misuse, Stop};

/// What a write to standard output came to.
pub fn written(result: Io<()>) -> Result<(), Stop> {
    match result {
        Ok(()) => Ok(()),
        Err(error) if error.kind() == ErrorKind::BrokenPipe => Err(Stop::Closed),
        Err(error) => Err(misuse(format!(
            "standard output cannot be written: {error}"
        ))),
    }
}

/// Writes these bytes to standard output.
pub fn write(bytes: &[u8]) -> Result<(), Stop> {
    let mut out = std::io::stdout().lock();
    written(out.write_all(bytes).and_then(|()| out.flush()))
}

/// Writes a text to standard output.
pub fn print(text: &str) -> Result<(), Stop> {
    write(text.as_bytes())
}

/// Writes a text that nobody need read: what the command does, and its status, stay the same.
pub fn offer(text: &str) -> Result<(), Stop> {
    match print(text) {
        Err(Stop::Closed) => Ok(()),
        other => other,
    }
}

/// The line `refused` and a number.
pub fn refused(refused: Refused) -> Result<(), Stop> {
    offer(&format!("refused {}\n", refused.number()))
}
