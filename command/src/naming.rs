//! What the equations, functions and variables of a table are called: as in its sheet, where there is one. A table alone
//! has numbers for equations, and for the others the names under which it is printed.

use wizbratel::{Frame, SheetNames, Table};

use crate::data::applied;
use crate::stream::Linear;

/// A table and the names of what it numbers.
pub struct Naming {
    pub table: Linear,
    names: Option<SheetNames>,
}

impl Naming {
    /// Of a table and its sheet; none where the table cannot be shown, which no accepted one is.
    pub fn of(table: &Table, sheet: Option<&[u8]>) -> Option<Naming> {
        let table = Linear::of(table.file())?;
        let names = sheet.and_then(SheetNames::of);
        let names = names.filter(|names| fits(names, &table));
        Some(Naming { table, names })
    }

    /// A frame with all its parameters: `Charging(0)`, `2:unplug`; of a table alone `1(0)`.
    pub fn frame(&self, frame: &Frame) -> String {
        if let Some(names) = &self.names {
            return names.frame(frame);
        }
        let equation = self.table.equations.get(usize::from(frame.equation));
        let count = equation.map_or(0, |equation| equation.parameters.len());
        let values = frame.values.iter().take(count);
        let values: Vec<String> = values.map(u8::to_string).collect();
        applied(&frame.equation.to_string(), &values)
    }

    /// Frames, the top first.
    pub fn stack(&self, frames: &[Frame]) -> String {
        let frames = frames.iter().rev().map(|frame| self.frame(frame));
        frames.collect::<Vec<_>>().join(" . ")
    }

    /// The process that an equation is written as, if it is known and is one.
    pub fn process(&self, equation: usize) -> Option<&str> {
        let names = self.names.as_ref()?.equations().get(equation)?;
        names.process.as_deref()
    }

    /// The part that an equation stands for, if it is known and there is one.
    pub fn part(&self, equation: usize) -> Option<&str> {
        let names = self.names.as_ref()?.equations().get(equation)?;
        names.process.is_none().then_some(&names.text)
    }

    /// What a call says of its equation: a process's name, or a number.
    pub fn equation(&self, equation: usize) -> String {
        let process = self.process(equation).map(str::to_string);
        process.unwrap_or_else(|| equation.to_string())
    }

    /// The variables of a summand, or the parameters alone.
    pub fn variables(&self, equation: usize, summand: Option<usize>) -> Vec<String> {
        let Some(names) = &self.names else {
            return self.made_variables(equation, summand);
        };
        let names = &names.equations()[equation];
        let sums = summand.and_then(|summand| names.sums.get(summand));
        let sums = sums.into_iter().flatten();
        names.parameters.iter().chain(sums).cloned().collect()
    }

    fn made_variables(&self, equation: usize, summand: Option<usize>) -> Vec<String> {
        let equation = &self.table.equations[equation];
        let sums = summand.map_or(0, |summand| equation.summands[summand].sums.len());
        let letters = self.letters('v', true);
        let count = equation.parameters.len() + sums;
        (0..count)
            .map(|number| format!("{letters}{number}"))
            .collect()
    }

    pub fn functions(&self) -> Vec<String> {
        match &self.names {
            Some(names) => names.functions().to_vec(),
            None => {
                let letters = self.letters('f', true);
                let numbers = 0..self.table.functions;
                numbers.map(|number| format!("{letters}{number}")).collect()
            }
        }
    }

    pub fn sort(&self, sort: usize) -> String {
        match self.table.sorts.get(sort) {
            Some(name) if !name.is_empty() => name.clone(),
            _ if sort == 0 => "Bool".to_string(),
            _ => format!("{}{sort}", self.letters('s', false)),
        }
    }

    /// The letter of printed names, as often as leaves no action, and if `sorts` no sort, that begins so.
    fn letters(&self, letter: char, sorts: bool) -> String {
        let sorts = self.table.sorts.iter().filter(|_| sorts);
        let actions = self.table.actions.iter().map(|action| &action.name);
        let run = |name: &String| name.chars().take_while(|found| *found == letter).count();
        let longest = sorts.chain(actions).map(run).max().unwrap_or(0);
        letter.to_string().repeat(longest + 1)
    }
}

/// Whether names are as many as a table has of everything.
fn fits(names: &SheetNames, table: &Linear) -> bool {
    let equations = names.equations().iter().zip(&table.equations);
    let mut equations = equations.map(|(names, equation)| {
        let named = names.sums.iter().map(Vec::len);
        let sums = equation.summands.iter().map(|summand| summand.sums.len());
        names.parameters.len() == equation.parameters.len() && named.eq(sums)
    });
    names.functions().len() == table.functions
        && names.equations().len() == table.equations.len()
        && equations.all(|fits| fits)
}
