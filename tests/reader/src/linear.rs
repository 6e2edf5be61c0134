//! From an accepted sheet to its table, within the table's limits (question 10).

use crate::count::HeadCounts;
use crate::equations::{self, Body, Equations};
use crate::heads::heads;
use crate::layout::Layout;
use crate::limits;
use crate::question::{self, put, Refusal};
use crate::sheet::Sheet;
use crate::stream::encode;
use crate::table::{Equation, Table};

/// The table that the head rules give for a sheet, or question 10.
pub fn linear_table(sheet: &Sheet) -> Result<Table, Refusal> {
    let equations = Equations::of(sheet);
    let counts = HeadCounts::of(sheet);
    let within = counts_within_limits(&equations, &counts);
    put(question::TABLE_LIMITS, within)?;
    let mut rows = Vec::new();
    for equation in &equations.list {
        rows.push(Equation {
            parameters: equation.parameters.clone(),
            summands: heads(&equations, &counts, equation)?,
        });
    }
    let table = Table {
        layout: Layout::Named,
        signature: sheet.signature.clone(),
        equations: rows,
        start: sheet.start,
        start_values: sheet.signature.values(&sheet.start_data, &[]),
    };
    let length = encode(&table).len();
    put(question::TABLE_LIMITS, length <= limits::STREAM_BYTES)?;
    Ok(table)
}

/// 64 equations, 4 parameters each, 255 summands in all.
fn counts_within_limits(equations: &Equations, counts: &HeadCounts) -> bool {
    let few_parameters =
        |equation: &equations::Equation| equation.parameters.len() <= limits::PARAMETERS;
    let head_count = |equation: &equations::Equation| match equation.body {
        Body::Process(process) => counts.process(process),
        Body::Part(part) => counts.part(part),
    };
    equations.list.len() <= limits::EQUATIONS
        && equations.list.iter().all(few_parameters)
        && equations.list.iter().map(head_count).sum::<usize>() <= limits::SUMMANDS
}
