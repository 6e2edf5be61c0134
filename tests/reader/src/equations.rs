//! The equations of a sheet: the written processes, then one for each part that stands after the
//! first of a sequence and is no call.

use crate::sheet::{Choice, Conditional, Part, PartKind, Sequence, Sheet};
use crate::signature::all_variables;

/// The right side of an equation.
#[derive(Clone, Copy, Debug)]
pub enum Body<'s> {
    /// That of a written process.
    Process(usize),
    /// A part of a sequence.
    Part(&'s Part),
}

/// An equation before its heads are taken.
#[derive(Clone, Debug)]
pub struct Equation<'s> {
    /// The right side.
    pub body: Body<'s>,
    /// How many variables are in scope where it stands.
    pub scope: usize,
    /// The variables of the scope that are its parameters, outermost first.
    pub variables: Vec<usize>,
    /// Their sorts.
    pub parameters: Vec<usize>,
}

/// All equations of a sheet, in the order of their numbers.
#[derive(Clone, Debug)]
pub struct Equations<'s> {
    /// The sheet.
    pub sheet: &'s Sheet,
    /// The equations; a call's number is an index into this list.
    pub list: Vec<Equation<'s>>,
}

impl<'s> Equations<'s> {
    /// The written processes, then the new equations by the place of the part's first character.
    pub fn of(sheet: &'s Sheet) -> Self {
        let mut list = Vec::new();
        for (number, process) in sheet.processes.iter().enumerate() {
            let scope = process.parameters.len();
            list.push(Equation {
                body: Body::Process(number),
                scope,
                variables: (0..scope).collect(),
                parameters: process.parameters.clone(),
            });
        }
        let mut collector = Collector {
            scope: Vec::new(),
            found: Vec::new(),
        };
        for process in &sheet.processes {
            collector.scope.clone_from(&process.parameters);
            collector.choice(&process.body);
        }
        collector.found.sort_by_key(|(place, _)| *place);
        list.extend(collector.found.into_iter().map(|(_, equation)| equation));
        Equations { sheet, list }
    }

    /// The number of the equation that a part after the first has got.
    pub fn number(&self, part: &Part) -> usize {
        let written = self.sheet.processes.len();
        let at = self.list[written..].partition_point(|equation| match equation.body {
            Body::Process(_) => true,
            Body::Part(other) => other.place < part.place,
        });
        written + at
    }
}

/// Walks the right sides with the sorts of the variables in scope.
struct Collector<'s> {
    scope: Vec<usize>,
    found: Vec<(usize, Equation<'s>)>,
}

impl<'s> Collector<'s> {
    fn choice(&mut self, choice: &'s Choice) {
        for conditional in choice {
            match conditional {
                Conditional::Sequence(parts) => self.sequence(parts),
                Conditional::Test { yes, no, .. } => {
                    self.sequence(yes);
                    self.sequence(no);
                }
            }
        }
    }

    fn sequence(&mut self, parts: &'s Sequence) {
        for (index, part) in parts.iter().enumerate() {
            if index > 0 && !matches!(part.kind, PartKind::Call(..)) {
                self.found.push((part.place, self.equation(part)));
            }
            self.inside(part);
        }
    }

    fn inside(&mut self, part: &'s Part) {
        match &part.kind {
            PartKind::Sum { sort, body, .. } => {
                self.scope.push(*sort);
                self.choice(body);
                self.scope.pop();
            }
            PartKind::Brackets(choice) => self.choice(choice),
            _ => {}
        }
    }

    /// The new equation has as many parameters as variables are marked, in that order.
    fn equation(&self, part: &'s Part) -> Equation<'s> {
        let marked = part_variables(part);
        let variables: Vec<usize> = (0..self.scope.len())
            .filter(|variable| marked & (1 << variable) != 0)
            .collect();
        let parameters = variables.iter().map(|&v| self.scope[v]).collect();
        Equation {
            body: Body::Part(part),
            scope: self.scope.len(),
            variables,
            parameters,
        }
    }
}

/// The variables in a part, those of its own sums too, as bits.
fn part_variables(part: &Part) -> u32 {
    match &part.kind {
        PartKind::Delta | PartKind::Tau => 0,
        PartKind::Action(_, data) | PartKind::Call(_, data) => all_variables(data),
        PartKind::Sum { body, .. } => choice_variables(body),
        PartKind::Brackets(choice) => choice_variables(choice),
    }
}

fn choice_variables(choice: &Choice) -> u32 {
    choice.iter().fold(0, |bits, conditional| {
        bits | match conditional {
            Conditional::Sequence(parts) => sequence_variables(parts),
            Conditional::Test { yes, test, no } => {
                sequence_variables(yes) | test.variables() | sequence_variables(no)
            }
        }
    })
}

fn sequence_variables(parts: &Sequence) -> u32 {
    parts
        .iter()
        .fold(0, |bits, part| bits | part_variables(part))
}
