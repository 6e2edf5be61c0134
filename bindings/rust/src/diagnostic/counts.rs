//! Question 6: lines, sizes of sorts, parameters. Lines are counted, whether or not their names repeat.

use super::finding::{Finding, Found};
use super::tree::{Name, Process, Sheet, Sort};

const SORTS: usize = 7;
const FUNCTIONS: usize = 16;
const ACTIONS: usize = 32;
const PROCESSES: usize = 16;
const PARAMETERS: usize = 4;
const SORT_SIZES: std::ops::RangeInclusive<u8> = 1..=16;

pub fn check(sheet: &Sheet) -> Found<()> {
    sheet.sorts.iter().try_for_each(size)?;
    let sorts = sheet.sorts.iter().map(|line| line.name);
    few("sorts beside Bool", SORTS, sorts)?;
    let functions = sheet.functions.iter().map(|line| line.name);
    few("functions", FUNCTIONS, functions)?;
    few(
        "actions",
        ACTIONS,
        sheet.actions.iter().map(|line| line.name),
    )?;
    let processes = sheet.processes.iter().map(|line| line.name);
    few("processes", PROCESSES, processes)?;
    sheet.processes.iter().try_for_each(parameters)
}

fn few<'s>(what: &str, most: usize, names: impl ExactSizeIterator<Item = Name<'s>>) -> Found<()> {
    let count = names.len();
    let mut names = names;
    match names.nth(most) {
        Some(name) => {
            let message = format!("{count} {what}: at most {most} may be declared");
            Err(Finding::new(6, name.span, message).label(format!("number {}", most + 1)))
        }
        None => Ok(()),
    }
}

fn size(sort: &Sort) -> Found<()> {
    if SORT_SIZES.contains(&sort.size.value) {
        return Ok(());
    }
    let (name, size) = (sort.name.text, sort.size.value);
    let message = format!("sort `{name}` has the size {size}");
    Err(Finding::new(6, sort.size.span, message).label("sizes are 1 to 16"))
}

fn parameters(process: &Process) -> Found<()> {
    let count = process.parameters.len();
    match process.parameters.get(PARAMETERS) {
        Some(fifth) => {
            let name = process.name.text;
            let message = format!(
                "process `{name}` has {count} parameters: at most {PARAMETERS} may be declared"
            );
            Err(Finding::new(6, fifth.name.span, message).label("number 5"))
        }
        None => Ok(()),
    }
}
