//! The questions put to a sheet, 1 to 9, in order.

use crate::circles::has_circle;
use crate::limits;
use crate::names;
use crate::parse;
use crate::question::{self, put, Refusal};
use crate::sheet::{Choice, Sheet};
use crate::sorts;
use crate::syntax;
use crate::token::{check_brackets, tokens, Token};

/// Puts questions 1 to 9 to a sheet: the sheet, or the number of the first one failed.
pub fn check_sheet(text: &[u8]) -> Result<Sheet, Refusal> {
    let sheet = check_written(text)?;
    put(question::CIRCLES, !has_circle(&sheet))?;
    Ok(sheet)
}

/// Questions 1 to 8.
pub(crate) fn check_written(text: &[u8]) -> Result<Sheet, Refusal> {
    let tokens = check_text(text)?;
    let parsed = parse::sheet(&tokens).ok_or(question::FORM)?;
    put(question::COUNTS, counts_right(&parsed))?;
    let sheet = names::resolve(&parsed).ok_or(question::NAMES)?;
    put(question::SORTS, sorts::well_sorted(&sheet))?;
    Ok(sheet)
}

impl Sheet {
    /// Reads a closed process term of this sheet: a rightly sorted choice without free
    /// variables. Questions 1 to 5, 7 and 8 are put to its text.
    pub fn closed_choice(&self, text: &[u8]) -> Result<Choice, Refusal> {
        let tokens = check_text(text)?;
        let parsed = parse::closed_choice(&tokens).ok_or(question::FORM)?;
        let choice = self.names.closed_choice(&self.signature, &parsed);
        let choice = choice.ok_or(question::NAMES)?;
        let sorted = sorts::closed_choice_well_sorted(self, &choice);
        put(question::SORTS, sorted)?;
        Ok(choice)
    }
}

/// Questions 1 to 4.
fn check_text(text: &[u8]) -> Result<Vec<Token<'_>>, Refusal> {
    put(question::SHEET_LENGTH, text.len() <= limits::SHEET_BYTES)?;
    let allowed = |byte: &u8| matches!(byte, 0x20..=0x7e | b'\n');
    put(question::BYTES, text.iter().all(allowed))?;
    let text = std::str::from_utf8(text).map_err(|_| question::BYTES)?;
    let tokens = tokens(text)?;
    check_brackets(&tokens)?;
    Ok(tokens)
}

/// Question 6: lines are counted, whether or not their names repeat.
fn counts_right(sheet: &syntax::Sheet) -> bool {
    let size_right = |&(_, size): &(&str, u8)| (1..=limits::SORT_SIZE).contains(&size);
    let parameters_right = |p: &syntax::Process| p.parameters.len() <= limits::PARAMETERS;
    sheet.sorts.len() < limits::SORTS
        && sheet.sorts.iter().all(size_right)
        && sheet.functions.len() <= limits::FUNCTIONS
        && sheet.actions.len() <= limits::ACTIONS
        && sheet.processes.len() <= limits::PROCESSES
        && sheet.processes.iter().all(parameters_right)
}
