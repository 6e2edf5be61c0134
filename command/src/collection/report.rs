//! What is said of a collection: the faults, sorted by name, one line each on standard error; what was done, in the same
//! manner on standard output, and the counts in a last line.

use super::judge::{KeptOut, Standing, Wrong};
use super::mark::Mark;
use super::mend::{Deed, Outcome, Unwritten};
use super::search::Sheet;
use super::Task;
use crate::out;
use crate::stop::{Status, Stop, GOOD, MISUSE, REFUSED};
use std::ffi::OsStr;
use std::fmt::Write as _;
use std::io::{self, BufWriter, Write};
use std::os::unix::ffi::OsStrExt;
use std::path::{Path, PathBuf};

pub struct Report {
    task: Task,
    lines: Vec<(PathBuf, String)>,
    done: Vec<(PathBuf, String)>,
    counts: Counts,
}

#[derive(Default)]
struct Counts {
    sheets: usize,
    right: usize,
    missing: usize,
    earlier: usize,
    differ: usize,
    refused: usize,
    unread: usize,
    unwritten: usize,
    no_sheet: usize,
    set_aside: usize,
    marks: usize,
    empty: usize,
}

impl Report {
    pub fn new(task: Task) -> Self {
        Report {
            task,
            lines: Vec::new(),
            done: Vec::new(),
            counts: Counts::default(),
        }
    }

    /// Takes in what came of one sheet.
    pub fn sheet(&mut self, sheet: &Sheet, outcome: Outcome) {
        self.counts.sheets += 1;
        let made = self.deeds(sheet, &outcome.deeds);
        match outcome.standing {
            Ok(Standing::Right) => self.counts.right += usize::from(!made),
            Ok(Standing::Marked) => {
                self.counts.right += 1;
                self.mark(&sheet.mark, "a mark, but its sheet is accepted");
            }
            Ok(Standing::Wrong(Wrong::Unread(error), _)) => self.unread(&sheet.table, &error),
            Ok(Standing::Wrong(wrong, _)) => {
                let [word, _] = self.wrong(&wrong);
                self.note(&sheet.table, word);
            }
            Ok(Standing::Refused(kept)) => self.refused(sheet, &kept),
            Ok(Standing::Unread(error)) => self.unread(&sheet.path, &error),
            Err(Unwritten(path, error)) => self.unwritten(&path, &error),
        }
    }

    /// Takes in what was done about a sheet: whether its table was made.
    fn deeds(&mut self, sheet: &Sheet, deeds: &[Deed]) -> bool {
        let mut made = false;
        for deed in deeds {
            match deed {
                // made again, since the sheet changed meanwhile
                Deed::Made(_) if made => {}
                Deed::Made(wrong) => {
                    made = true;
                    let [_, word] = self.wrong(wrong);
                    self.did(&sheet.table, word.to_string());
                }
                Deed::SetAside(old) => {
                    self.counts.set_aside += 1;
                    let old = shown(old.file_name().unwrap_or_default());
                    self.did(&sheet.table, format!("set aside as {old}"));
                }
                Deed::Marked => self.did(&sheet.mark, "written".to_string()),
                Deed::Unmarked => self.did(&sheet.mark, "removed".to_string()),
            }
        }
        made
    }

    fn refused(&mut self, sheet: &Sheet, kept: &KeptOut) {
        self.counts.refused += 1;
        let number = kept.refusal.refused().number();
        self.note(
            &sheet.path,
            &format!("refused {number}: {}", kept.refusal.line()),
        );
        if kept.has_table {
            let text = "no sheet: it stands without a right one, that beside it is refused";
            self.no_sheet(&sheet.table, text);
        }
        match &kept.mark {
            _ if !self.task.marks => {}
            Mark::Of(marked, _) if *marked == number => {}
            Mark::Of(marked, _) => {
                let text = format!("a mark with {marked}, but its sheet is refused by {number}");
                self.mark(&sheet.mark, &text);
            }
            Mark::Missing => self.mark(&sheet.mark, "missing: the mark of a refused sheet"),
            Mark::Other => self.mark(
                &sheet.mark,
                "no mark, where that of a refused sheet belongs",
            ),
        }
    }

    /// Counts what is wrong with a table: what that is, and what it is called when it is mended.
    fn wrong(&mut self, wrong: &Wrong) -> [&'static str; 2] {
        let earlier = "earlier layout: the sheet's table without the names of its sorts";
        let (count, words) = match wrong {
            Wrong::Missing => (&mut self.counts.missing, ["missing", "made"]),
            Wrong::Earlier => (&mut self.counts.earlier, [earlier, "updated"]),
            Wrong::Differs | Wrong::Unread(_) => (&mut self.counts.differ, ["differs", "mended"]),
        };
        *count += 1;
        words
    }

    /// A table, or a mark, without a right sheet.
    pub fn no_sheet(&mut self, path: &Path, text: &str) {
        self.counts.no_sheet += 1;
        self.note(path, text);
    }

    /// A mark that is not as it should be.
    fn mark(&mut self, path: &Path, text: &str) {
        if self.task.marks {
            self.counts.marks += 1;
            self.note(path, text);
        }
    }

    /// A folder to search without a sheet in it.
    pub fn empty(&mut self, folder: &Path) {
        self.counts.empty += 1;
        self.note(folder, "no sheet is found in it");
    }

    pub fn unread(&mut self, path: &Path, error: &io::Error) {
        self.counts.unread += 1;
        self.note(path, &format!("cannot be read: {error}"));
    }

    pub fn unwritten(&mut self, path: &Path, error: &io::Error) {
        self.counts.unwritten += 1;
        self.note(path, &format!("cannot be written: {error}"));
    }

    /// A line that is counted nowhere.
    pub fn note(&mut self, path: &Path, text: &str) {
        self.lines.push((path.to_path_buf(), text.to_string()));
    }

    /// A thing that was done.
    pub fn did(&mut self, path: &Path, text: String) {
        if self.task.tells {
            self.done.push((path.to_path_buf(), text));
        }
    }

    /// The status of the worst. Refused sheets that are marked and have no table are as they should be for an audit; a
    /// `renew` says that there are some.
    pub fn status(&self) -> Status {
        let counts = &self.counts;
        let wrong = match self.task.renews {
            true => counts.refused,
            false => counts.missing + counts.earlier + counts.differ + counts.marks + counts.empty,
        };
        let unmarked = if self.task.marks { 0 } else { counts.refused };
        if counts.unread + counts.unwritten > 0 {
            MISUSE
        } else if wrong + unmarked + counts.no_sheet > 0 {
            REFUSED
        } else {
            GOOD
        }
    }

    /// Writes the faults. If that fails, there is nowhere to say it.
    pub fn faults(&self) {
        let mut out = BufWriter::new(io::stderr().lock());
        let _ = out.write_all(text(&self.lines).as_bytes());
        let _ = out.flush();
    }

    /// Writes what was done, and the counts.
    pub fn told(&self) -> Result<(), Stop> {
        let counts = self.counts.shown(self.task.renews);
        out::offer(&format!("{}{counts}\n", text(&self.done)))
    }
}

impl Counts {
    fn shown(&self, renewed: bool) -> String {
        let Counts {
            sheets,
            right,
            missing,
            earlier,
            differ,
            refused,
            unread,
            unwritten,
            no_sheet,
            set_aside,
            marks,
            ..
        } = self;
        if renewed {
            format!(
                "sheets {sheets}: right {right}, made {missing}, updated {earlier}, mended {differ}, \
                 refused {refused}, unread {unread}, unwritten {unwritten}, no sheet {no_sheet}, \
                 set aside {set_aside}"
            )
        } else {
            format!(
                "sheets {sheets}: right {right}, missing {missing}, earlier {earlier}, \
                 differs {differ}, refused {refused}, unread {unread}, no sheet {no_sheet}, \
                 wrong marks {marks}"
            )
        }
    }
}

/// Lines sorted by name.
fn text(lines: &[(PathBuf, String)]) -> String {
    let mut lines: Vec<_> = lines.iter().collect();
    lines.sort();
    let lines = lines.into_iter();
    let line = |(path, text): &(PathBuf, String)| format!("{}: {text}\n", shown(path.as_os_str()));
    lines.map(line).collect()
}

/// A name. Bytes that are no text and control characters are shown as `\xNN`, so that a line stays one line.
fn shown(name: &OsStr) -> String {
    let mut shown = String::new();
    for chunk in name.as_bytes().utf8_chunks() {
        for letter in chunk.valid().chars() {
            match letter.is_control() {
                true => letter
                    .to_string()
                    .bytes()
                    .for_each(|byte| hex(&mut shown, byte)),
                false => shown.push(letter),
            }
        }
        chunk
            .invalid()
            .iter()
            .for_each(|&byte| hex(&mut shown, byte));
    }
    shown
}

fn hex(shown: &mut String, byte: u8) {
    let _ = write!(shown, "\\x{byte:02x}");
}
