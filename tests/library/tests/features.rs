//! What the generated sheets with many heads reach of document 01's "Heads", so that comparing them says something.

use library::common::generate;
use library::made::same;
use reader::limits::FILE_BYTES;
use reader::sheet::{Choice, Conditional, PartKind};
use reader::table::Summand;
use reader::{check_sheet, linear_table, Sheet, Table};

/// Sheets looked at.
const SHEETS: u64 = 6000;

/// First parts of a choice, through brackets and sums.
fn firsts<'s>(choice: &'s Choice, found: &mut Vec<&'s PartKind>) {
    for conditional in choice {
        let sequences = match conditional {
            Conditional::Sequence(parts) => vec![parts],
            Conditional::Test { yes, no, .. } => vec![yes, no],
        };
        for parts in sequences {
            match &parts[0].kind {
                PartKind::Sum { body, .. } => firsts(body, found),
                PartKind::Brackets(choice) => firsts(choice, found),
                other => found.push(other),
            }
        }
    }
}

/// The longest way down from a process by calls with data at the head.
fn way(sheet: &Sheet, process: usize) -> usize {
    let mut found = Vec::new();
    firsts(&sheet.processes[process].body, &mut found);
    let calls = found.into_iter().filter_map(|part| match part {
        PartKind::Call(called, data) if !data.is_empty() => Some(1 + way(sheet, *called)),
        _ => None,
    });
    calls.max().unwrap_or(0)
}

/// Whether some summand of the table is so.
fn some(table: &Table, is: fn(&Summand) -> bool) -> bool {
    let equations = table.equations.iter();
    equations.flat_map(|equation| &equation.summands).any(is)
}

/// What is looked for.
const FEATURES: [&str; 10] = [
    "calls with data at the head through two processes",
    "the same through four",
    "two sum variables in a summand",
    "three conditions in a summand",
    "three calls in a summand",
    "a term of five nodes in a condition or an action",
    "tau",
    "a new equation with parameters",
    "an equation without summands",
    "twenty summands",
];

fn features(sheet: &Sheet, table: &Table) -> [bool; 10] {
    let longest = (0..sheet.processes.len())
        .map(|process| way(sheet, process))
        .max();
    let new = &table.equations[sheet.processes.len()..];
    let summands: usize = table
        .equations
        .iter()
        .map(|equation| equation.summands.len())
        .sum();
    [
        longest >= Some(2),
        longest >= Some(4),
        some(table, |summand| summand.variables.len() >= 2),
        some(table, |summand| summand.conditions.len() >= 3),
        some(table, |summand| summand.calls.len() >= 3),
        some(table, |summand| {
            let tests = summand.conditions.iter().map(|condition| &condition.data);
            tests
                .chain(&summand.arguments)
                .any(|data| data.nodes() >= 5)
        }),
        some(table, |summand| summand.action.is_none()),
        new.iter().any(|equation| !equation.parameters.is_empty()),
        table
            .equations
            .iter()
            .any(|equation| equation.summands.is_empty()),
        summands >= 20,
    ]
}

#[test]
fn heads_of_every_kind() {
    let mut seen = [0; FEATURES.len()];
    let mut accepted = 0;
    for seed in 0..SHEETS {
        let text = generate::with_heads(seed);
        if same(text.as_bytes(), FILE_BYTES, "many heads") != 0 {
            continue;
        }
        accepted += 1;
        let sheet = check_sheet(text.as_bytes()).expect("accepted");
        let table = linear_table(&sheet).expect("a table");
        for (count, has) in seen.iter_mut().zip(features(&sheet, &table)) {
            *count += u64::from(has);
        }
    }
    println!("{accepted} accepted of {SHEETS}");
    for (feature, count) in FEATURES.iter().zip(seen) {
        println!("{feature}: {count}");
        assert!(count >= SHEETS / 60, "{feature}: {count}");
    }
}
