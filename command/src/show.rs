//! `show SHEET|TABLE`: the equations of a table with their summands, and its start.

use std::ffi::OsString;

use crate::args::Args;
use crate::data::{applied, shown};
use crate::help::Help;
use crate::input::{self, Kind, SHEET_OPTION, TABLE_OPTION};
use crate::naming::Naming;
use crate::out;
use crate::stop::{Status, Stop, GOOD};
use crate::stream::{Call, Summand, Term};

pub const HELP: Help = Help {
    usage: "show SHEET|TABLE",
    does: "shows the equations of a table",
    text: "\
Prints a line for each summand of a table, the equations in order: the variables
that are summed over, the conditions with the value wanted of each, the action,
and the calls, the first of which comes next; then the start. Of a sheet names
are its own, and a new equation has its number and the part that it stands for.
A table file has none of these names: equations have numbers, functions and
variables the names that print gives them.
",
    options: &[TABLE_OPTION, SHEET_OPTION],
    example: "wizbratel show charger.pcrl",
};

/// A cell that is longer than this does not make its column wider.
const WIDEST: usize = 40;

/// Equation, what it is, sums, conditions, action, calls.
type Row = [String; 6];

/// Prints the table.
pub fn run(words: &[OsString]) -> Result<Status, Stop> {
    let args = Args::parse(words, HELP.options)?;
    let name = args.file("SHEET or TABLE")?;
    let (_, naming) = input::named(name, Kind::of(&args, name)?)?;
    out::print(&aligned(&rows(&naming))).map(|()| GOOD)
}

fn rows(naming: &Naming) -> Vec<Row> {
    let mut rows = Vec::new();
    for (number, equation) in naming.table.equations.iter().enumerate() {
        let title = title(naming, number);
        let mut summands = own_rows(naming, number, &equation.summands);
        // a long title has a line of its own
        if title.len() > WIDEST {
            summands.insert(0, Row::default());
        }
        summands[0][0] = format!("equation {number}");
        summands[0][1] = title;
        rows.extend(summands);
    }
    let mut start = Row::default();
    start[0] = "start".to_string();
    start[1] = call(naming, &naming.table.start, &[], &[]);
    rows.push(start);
    rows
}

/// The rows of an equation's summands, at least one.
fn own_rows(naming: &Naming, equation: usize, summands: &[Summand]) -> Vec<Row> {
    if summands.is_empty() {
        let mut row = Row::default();
        row[4] = "no summand".to_string();
        return vec![row];
    }
    let summands = summands.iter().enumerate();
    let rows = summands.map(|(index, summand)| row(naming, equation, index, summand));
    rows.collect()
}

/// What an equation is: a process or a part, and its parameters.
fn title(naming: &Naming, equation: usize) -> String {
    let sorts = &naming.table.equations[equation].parameters;
    let parameters = declared(naming, &naming.variables(equation, None), sorts);
    match (naming.process(equation), naming.part(equation)) {
        (_, Some(part)) if parameters.is_empty() => part.to_string(),
        (_, Some(part)) => format!("{part} with {parameters}"),
        (process, None) if parameters.is_empty() => process.unwrap_or_default().to_string(),
        (process, None) => format!("{}({parameters})", process.unwrap_or_default()),
    }
}

/// Variables with their sorts.
fn declared(naming: &Naming, names: &[String], sorts: &[usize]) -> String {
    let each = names.iter().zip(sorts);
    let each = each.map(|(name, sort)| format!("{name}: {}", naming.sort(*sort)));
    each.collect::<Vec<_>>().join(", ")
}

fn row(naming: &Naming, equation: usize, index: usize, summand: &Summand) -> Row {
    let variables = naming.variables(equation, Some(index));
    let functions = naming.functions();
    let all = |terms: &[Term]| -> Vec<String> {
        let terms = terms.iter();
        terms
            .map(|term| shown(term, &variables, &functions))
            .collect()
    };
    let own = &variables[variables.len() - summand.sums.len()..];
    let conditions = summand.conditions.iter();
    let conditions = conditions
        .map(|(wanted, term)| format!("{} is {wanted}", shown(term, &variables, &functions)));
    let action = summand.action.map(|action| &naming.table.actions[action]);
    let action = action.map_or("tau", |action| &action.name);
    let calls = summand.calls.iter();
    let calls = calls.map(|to| call(naming, to, &variables, &functions));
    Row::from([
        String::new(),
        String::new(),
        headed("sum", &declared(naming, own, &summand.sums)),
        headed("if", &conditions.collect::<Vec<_>>().join(", ")),
        applied(action, &all(&summand.data)),
        match &calls.collect::<Vec<_>>()[..] {
            [] => "no call".to_string(),
            calls => format!("calls {}", calls.join(", then ")),
        },
    ])
}

/// A word before a text, if there is one.
fn headed(word: &str, text: &str) -> String {
    match text {
        "" => String::new(),
        _ => format!("{word} {text}"),
    }
}

fn call(naming: &Naming, call: &Call, variables: &[String], functions: &[String]) -> String {
    let data = call.data.iter();
    let data = data.map(|term| shown(term, variables, functions));
    applied(&naming.equation(call.equation), &data.collect::<Vec<_>>())
}

/// Rows in columns, those left out in which nothing stands.
fn aligned(rows: &[Row]) -> String {
    let width = |column: usize| {
        let lengths = rows.iter().map(|row| row[column].len());
        lengths
            .filter(|length| *length <= WIDEST)
            .max()
            .unwrap_or(0)
    };
    let widths: [usize; 6] = std::array::from_fn(width);
    let line = |row: &Row| {
        let used = |(cell, width): &(&String, usize)| *width > 0 || !cell.is_empty();
        let cells = row.iter().zip(widths).filter(used);
        let cells = cells.map(|(cell, width)| format!("{cell:width$}  "));
        format!("{}\n", cells.collect::<String>().trim_end())
    };
    rows.iter().map(line).collect()
}
