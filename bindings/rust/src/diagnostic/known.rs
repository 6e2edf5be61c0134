//! The declared names of a sheet. Sorts, functions, actions and processes share one space of names, in which Bool is
//! taken.

use std::collections::HashMap;

use super::finding::{Finding, Found, Span};
use super::tree::{Name, Sheet};

/// What a declared name stands for: the number of its line among those of its kind. Bool is sort 0.
#[derive(Clone, Copy, Debug, PartialEq, Eq)]
pub enum Declared {
    Sort(usize),
    Function(usize),
    Action(usize),
    Process(usize),
}

pub const BOOL: usize = 0;

/// A sheet whose declared names are all different.
pub struct Known<'t, 's> {
    pub sheet: &'t Sheet<'s>,
    names: HashMap<&'s str, Declared>,
}

impl Declared {
    /// What it is, in a message.
    pub fn kind(self) -> &'static str {
        match self {
            Declared::Sort(_) => "a sort",
            Declared::Function(_) => "a function",
            Declared::Action(_) => "an action",
            Declared::Process(_) => "a process",
        }
    }
}

impl<'t, 's> Known<'t, 's> {
    /// The declared names; question 7 asks that none is declared twice.
    pub fn of(sheet: &'t Sheet<'s>) -> Found<Self> {
        let names = HashMap::from([("Bool", Declared::Sort(BOOL))]);
        let mut known = Known { sheet, names };
        for (name, declared) in lines(sheet) {
            known.declare(name, declared)?;
        }
        Ok(known)
    }

    fn declare(&mut self, name: Name<'s>, declared: Declared) -> Found<()> {
        let Some(&earlier) = self.names.get(name.text) else {
            self.names.insert(name.text, declared);
            return Ok(());
        };
        let text = name.text;
        if earlier == Declared::Sort(BOOL) {
            let help = match declared {
                Declared::Sort(_) => {
                    "leave the line out: Bool has the values 0, false, and 1, true"
                }
                _ => "take another name",
            };
            let message = "`Bool` is the name of a sort that every sheet has";
            return Err(Finding::new(7, name.span, message).help(help.to_string()));
        }
        let message = match earlier.kind() == declared.kind() {
            true => format!("`{text}` is declared twice"),
            false => format!(
                "`{text}` is declared as {} and as {}",
                earlier.kind(),
                declared.kind()
            ),
        };
        Err(Finding::new(7, name.span, message)
            .label("declared again")
            .note(self.span(earlier), "declared first")
            .help("sorts, functions, actions and processes share one space of names".to_string()))
    }

    pub fn get(&self, name: &str) -> Option<Declared> {
        self.names.get(name).copied()
    }

    /// The names of which this holds, in no order.
    pub fn names(&self, fits: fn(Declared) -> bool) -> Vec<&'s str> {
        let fitting = self.names.iter().filter(|(_, declared)| fits(**declared));
        let mut names: Vec<&str> = fitting.map(|(name, _)| *name).collect();
        names.sort_unstable();
        names
    }

    /// Where a name is declared; Bool is nowhere.
    pub fn span(&self, declared: Declared) -> Option<Span> {
        let sheet = self.sheet;
        match declared {
            Declared::Sort(i) => sheet
                .sorts
                .get(i.checked_sub(1)?)
                .map(|line| line.name.span),
            Declared::Function(i) => sheet.functions.get(i).map(|line| line.name.span),
            Declared::Action(i) => sheet.actions.get(i).map(|line| line.name.span),
            Declared::Process(i) => sheet.processes.get(i).map(|line| line.name.span),
        }
    }

    /// The sort of a name that question 7 found to be one.
    pub fn sort(&self, name: Name) -> usize {
        match self.get(name.text) {
            Some(Declared::Sort(sort)) => sort,
            _ => BOOL,
        }
    }

    pub fn sorts(&self, names: &[Name]) -> Vec<usize> {
        names.iter().map(|name| self.sort(*name)).collect()
    }

    pub fn sort_name(&self, sort: usize) -> &'s str {
        let line = sort.checked_sub(1).and_then(|i| self.sheet.sorts.get(i));
        line.map_or("Bool", |line| line.name.text)
    }

    /// How many values a sort has.
    pub fn size(&self, sort: usize) -> u8 {
        let line = sort.checked_sub(1).and_then(|i| self.sheet.sorts.get(i));
        line.map_or(2, |line| line.size.value)
    }
}

/// All declared names, in the order of the text.
fn lines<'s>(sheet: &Sheet<'s>) -> Vec<(Name<'s>, Declared)> {
    let sorts = (1..).map(Declared::Sort);
    let functions = (0..).map(Declared::Function);
    let actions = (0..).map(Declared::Action);
    let processes = (0..).map(Declared::Process);
    let sorts = sheet.sorts.iter().map(|line| line.name).zip(sorts);
    let functions = sheet.functions.iter().map(|line| line.name).zip(functions);
    let actions = sheet.actions.iter().map(|line| line.name).zip(actions);
    let processes = sheet.processes.iter().map(|line| line.name).zip(processes);
    sorts
        .chain(functions)
        .chain(actions)
        .chain(processes)
        .collect()
}
