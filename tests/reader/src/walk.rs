//! The walk: step 0 up to 8 times from a sheet's start, as text.

use crate::check::check_sheet;
use crate::limits::WALK_STEPS;
use crate::linear::linear_table;
use crate::stack::Frame;
use crate::steps::step;
use crate::table::Table;

/// The whole text that the walk of a sheet prints.
pub fn walk(sheet: &[u8]) -> String {
    match check_sheet(sheet).and_then(|sheet| linear_table(&sheet)) {
        Ok(table) => walk_table(&table),
        Err(number) => format!("refused {number}\n"),
    }
}

fn walk_table(table: &Table) -> String {
    let mut text = String::new();
    let mut stack = table.start_stack();
    let mut taken = 0;
    while taken < WALK_STEPS {
        let Some((label, next)) = step(table, &stack, 0) else {
            break;
        };
        taken += 1;
        stack = next;
        text += &format!("{taken} {label} {}\n", stack.len());
    }
    text + closing_word(&stack, taken) + "\n"
}

/// It closes with `ended`, else `more` after 8, else `stuck`.
fn closing_word(stack: &[Frame], taken: usize) -> &'static str {
    if stack.is_empty() {
        "ended"
    } else if taken == WALK_STEPS {
        "more"
    } else {
        "stuck"
    }
}
