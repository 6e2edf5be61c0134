//! The collection: folders, searched with their subfolders, in which an accepted sheet `NAME.pcrl` has its table
//! `NAME.table` beside it, and a refused one has no table, but a mark `NAME.refused`. `renew` makes it so, `audit` only
//! looks. What a sheet's table is, and which sheets are refused, the library says.

mod earlier;
mod help;
mod judge;
mod mark;
mod mend;
mod report;
mod search;
mod shard;
mod workers;

use crate::args::Args;
use crate::replace::{folder_of, sync_folder};
use crate::stop::{misuse, Status, Stop};
pub use help::{AUDIT, RENEW};
use help::{NO_MARK, QUIET, SHARD};
use judge::judge;
use mark::Mark;
use mend::{mend, Outcome};
use report::Report;
use search::{search, Found, Sheet};
use shard::Shard;
use std::collections::BTreeSet;
use std::ffi::OsString;
use std::io;
use std::path::Path;

/// Threads for each core when tables are written: most of them wait for the disk.
const WRITERS: usize = 8;

/// What is done, and how.
#[derive(Clone, Copy)]
pub struct Task {
    /// Whether anything is written.
    renews: bool,
    /// Whether refused sheets are to be marked.
    marks: bool,
    /// Whether what was done is told.
    tells: bool,
    shard: Shard,
}

/// `renew DIR..`: makes each table that is missing or differs, and keeps refused sheets out.
pub fn renew(words: &[OsString]) -> Result<Status, Stop> {
    run(true, &Args::parse(words, RENEW.options)?)
}

/// `audit DIR..`: writes nothing.
pub fn audit(words: &[OsString]) -> Result<Status, Stop> {
    run(false, &Args::parse(words, AUDIT.options)?)
}

fn run(renews: bool, args: &Args) -> Result<Status, Stop> {
    let shard = args.value(SHARD).map(|value| Shard::parse(SHARD, value));
    let task = Task {
        renews,
        marks: !args.has(NO_MARK),
        tells: renews && !args.has(QUIET),
        shard: shard.transpose()?.unwrap_or(Shard::WHOLE),
    };
    if args.files().is_empty() {
        return Err(misuse("DIR is missing"));
    }
    let report = process(task, search(args.files(), task.shard));
    report.faults();
    report.told()?;
    Ok(report.status())
}

/// Judges every sheet, and for `renew` does what is to be done.
fn process(task: Task, found: Found) -> Report {
    let mut report = Report::new(task);
    left_over(task, &found, &mut report);
    let cores = std::thread::available_parallelism().map_or(1, |n| n.get());
    let threads = if task.renews { cores * WRITERS } else { cores };
    let outcomes = workers::each(&found.sheets, threads, true, |sheet| outcome(task, sheet));
    sync(&found.sheets, &outcomes, threads, &mut report);
    for (sheet, outcome) in found.sheets.iter().zip(outcomes) {
        report.sheet(sheet, outcome);
    }
    for table in &found.tables {
        report.no_sheet(table, "no sheet");
    }
    let marks = found
        .marks
        .iter()
        .filter(|path| task.marks && is_mark(path));
    marks.for_each(|mark| report.no_sheet(mark, "no sheet, but its mark"));
    for path in &found.large {
        report.note(
            path,
            "no sheet by its name: the ending is .pcrl in small letters",
        );
    }
    for (folder, error) in &found.unread {
        report.unread(folder, error);
    }
    for folder in &found.empty {
        report.empty(folder);
    }
    report
}

fn is_mark(path: &Path) -> bool {
    matches!(mark::look(path), Mark::Of(..))
}

fn outcome(task: Task, sheet: &Sheet) -> Outcome {
    if task.renews {
        return mend(sheet, task.marks);
    }
    let (deeds, standing) = (Vec::new(), Ok(judge(sheet)));
    Outcome { deeds, standing }
}

/// Makes last what was done in each folder.
fn sync(sheets: &[Sheet], outcomes: &[Outcome], threads: usize, report: &mut Report) {
    let changed = sheets.iter().zip(outcomes);
    let changed = changed.filter(|(_, outcome)| !outcome.deeds.is_empty());
    let changed: BTreeSet<&Path> = changed.map(|(sheet, _)| folder_of(&sheet.table)).collect();
    let changed: Vec<&Path> = changed.into_iter().collect();
    let synced = workers::each(&changed, threads, false, |folder| sync_folder(folder));
    for (folder, synced) in changed.iter().zip(synced) {
        if let Err(error) = synced {
            report.unwritten(folder, &error);
        }
    }
}

/// The temporary files of a command that was cut off: `renew` removes them. One of a command that is at work makes that
/// one write its file again.
fn left_over(task: Task, found: &Found, report: &mut Report) {
    for path in &found.left_over {
        if !task.renews {
            report.note(
                path,
                "left over by a command that was cut off; renew removes it",
            );
            continue;
        }
        match std::fs::remove_file(path) {
            Ok(()) => report.did(path, "left over, removed".to_string()),
            Err(error) if error.kind() == io::ErrorKind::NotFound => {}
            Err(error) => report.note(path, &format!("left over, cannot be removed: {error}")),
        }
    }
}
