//! What `renew` does about one sheet: its own table if it is accepted; if not, no table, and a mark.

use super::judge::{judge, KeptOut, Standing, Wrong};
use super::mark::{self, Mark};
use super::search::Sheet;
use crate::replace::replace;
use std::fs;
use std::io;
use std::path::{Path, PathBuf};

/// How often a sheet is looked at again because it changes meanwhile.
const ROUNDS: usize = 12;

/// What was done about one sheet, and how it stands then.
pub struct Outcome {
    pub deeds: Vec<Deed>,
    pub standing: Result<Standing, Unwritten>,
}

/// One thing done.
pub enum Deed {
    /// The table was made; what was wrong before.
    Made(Wrong),
    /// The table was set aside under this name.
    SetAside(PathBuf),
    Marked,
    Unmarked,
}

/// A file that could not be written, or renamed, or removed.
pub struct Unwritten(pub PathBuf, pub io::Error);

/// What comes of looking at a sheet once.
enum Next {
    Done(Deed),
    /// Another has done it.
    Again,
    /// There is nothing to do.
    Settled(Standing),
}

/// Does one thing after another, and looks at the sheet again after each: it may have changed meanwhile, and another
/// `renew` may have read it earlier or later.
pub fn mend(sheet: &Sheet, marks: bool) -> Outcome {
    let mut deeds = Vec::new();
    for _ in 0..ROUNDS {
        let standing = match next(sheet, marks) {
            Ok(Next::Done(deed)) => {
                deeds.push(deed);
                continue;
            }
            Ok(Next::Again) => continue,
            Ok(Next::Settled(standing)) => Ok(standing),
            Err(unwritten) => Err(unwritten),
        };
        return Outcome { deeds, standing };
    }
    let error = io::Error::other("the sheet changes all the time");
    let standing = Err(at(&sheet.table)(error));
    Outcome { deeds, standing }
}

/// Looks at a sheet and does the next thing, if there is one to do.
fn next(sheet: &Sheet, marks: bool) -> Result<Next, Unwritten> {
    match judge(sheet) {
        Standing::Wrong(wrong, made) => {
            let written = replace(&sheet.table, made.table.file(), made.mode);
            written.map_err(at(&sheet.table))?;
            Ok(Next::Done(Deed::Made(wrong)))
        }
        Standing::Marked => match unless_gone(fs::remove_file(&sheet.mark)) {
            Ok(Some(())) => Ok(Next::Done(Deed::Unmarked)),
            Ok(None) => Ok(Next::Again),
            Err(error) => Err(at(&sheet.mark)(error)),
        },
        Standing::Refused(kept) if kept.has_table => {
            match unless_gone(mark::set_aside(&sheet.table)) {
                Ok(Some(old)) => Ok(Next::Done(Deed::SetAside(old))),
                Ok(None) => Ok(Next::Again),
                Err(error) => Err(at(&sheet.table)(error)),
            }
        }
        Standing::Refused(kept) if marks => match marked(sheet, &kept).map_err(at(&sheet.mark))? {
            true => Ok(Next::Settled(Standing::Refused(kept))),
            false => Ok(Next::Done(Deed::Marked)),
        },
        standing => Ok(Next::Settled(standing)),
    }
}

/// Marks a refused sheet, unless it has its mark.
fn marked(sheet: &Sheet, kept: &KeptOut) -> io::Result<bool> {
    let text = mark::text(&kept.refusal);
    match &kept.mark {
        Mark::Of(_, bytes) if *bytes == text.as_bytes() => Ok(true),
        Mark::Other => Err(io::Error::other("another file has the mark's name")),
        Mark::Missing | Mark::Of(..) => {
            replace(&sheet.mark, text.as_bytes(), kept.mode)?;
            Ok(false)
        }
    }
}

/// Nothing, where the file is not there any more: another has done it.
fn unless_gone<T>(done: io::Result<T>) -> io::Result<Option<T>> {
    match done {
        Err(error) if error.kind() == io::ErrorKind::NotFound => Ok(None),
        done => done.map(Some),
    }
}

fn at(path: &Path) -> impl FnOnce(io::Error) -> Unwritten + '_ {
    move |error| Unwritten(path.to_path_buf(), error)
}
