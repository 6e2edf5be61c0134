//! Closed process terms, stepped by the usual rules straight from the sheet, never through its
//! table.

use crate::count::HeadCounts;
use crate::equations::{Body, Equations};
use crate::put::Put;
use crate::question::Refusal;
use crate::sheet::{Choice, Conditional, Part, PartKind, Sequence, Sheet};
use crate::signature::Data;
use crate::stack::Frame;
use crate::transitions::{Label, Transitions};

/// A closed process term: closed parts in sequence; without parts it is the ended process. Closed
/// data in it is a value.
#[derive(Clone, Debug, PartialEq, Eq, Hash)]
pub struct Term {
    /// The parts, first one first.
    pub parts: Sequence,
}

/// The closed terms of an accepted sheet.
#[derive(Clone, Debug)]
pub struct Terms<'s> {
    sheet: &'s Sheet,
    equations: Equations<'s>,
    counts: HeadCounts,
}

impl<'s> Terms<'s> {
    /// The closed terms of this sheet.
    pub fn of(sheet: &'s Sheet) -> Self {
        Terms {
            sheet,
            equations: Equations::of(sheet),
            counts: HeadCounts::of(sheet),
        }
    }

    /// The term of a text: a rightly sorted choice without free variables. Questions 1 to 5, 7
    /// and 8 are put to it.
    pub fn read(&self, text: &[u8]) -> Result<Term, Refusal> {
        let choice = self.sheet.closed_choice(text)?;
        Ok(closed(&self.put(&[]).choice(&choice)))
    }

    /// The call of the `init` line.
    pub fn start(&self) -> Term {
        let values = self.sheet.signature.values(&self.sheet.start_data, &[]);
        let parts = vec![call(self.sheet.start, &values)];
        Term { parts }
    }

    /// What a frame of the sheet's table stands for: that of a written equation for a call of its
    /// process with the frame's values, that of a new equation for its part with them put in.
    pub fn of_frame(&self, frame: &Frame) -> Part {
        let equation = &self.equations.list[usize::from(frame.equation)];
        let values = &frame.values[..equation.parameters.len()];
        match equation.body {
            Body::Process(process) => call(process, values),
            Body::Part(part) => {
                let mut known = vec![None; equation.scope];
                for (&variable, &value) in equation.variables.iter().zip(values) {
                    known[variable] = Some(value);
                }
                self.put(&known).part(part)
            }
        }
    }

    /// What a stack stands for: its calls in sequence, top first.
    pub fn of_stack(&self, stack: &[Frame]) -> Term {
        let frames = stack.iter().rev();
        let parts = frames.map(|frame| self.of_frame(frame)).collect();
        Term { parts }
    }

    fn put<'k>(&'k self, known: &'k [Option<u8>]) -> Put<'k> {
        let signature = &self.sheet.signature;
        Put { signature, known }
    }

    fn choice_steps(&self, choice: &Choice, steps: &mut Vec<(Label, Term)>) {
        for conditional in choice {
            let parts = match conditional {
                Conditional::Sequence(parts) => parts,
                Conditional::Test { yes, test, no } => {
                    let holds = self.sheet.signature.value(test, &[]) == 1;
                    if holds {
                        yes
                    } else {
                        no
                    }
                }
            };
            self.sequence_steps(parts, steps);
        }
    }

    /// p.q goes on as p'.q, or as q if p ended.
    fn sequence_steps(&self, parts: &[Part], steps: &mut Vec<(Label, Term)>) {
        let before = steps.len();
        self.part_steps(&parts[0], steps);
        for (_, next) in &mut steps[before..] {
            next.parts.extend_from_slice(&parts[1..]);
        }
    }

    /// The steps of a closed part. One without heads has none; its values need not be tried.
    fn part_steps(&self, part: &Part, steps: &mut Vec<(Label, Term)>) {
        if self.counts.part(part) == 0 {
            return;
        }
        match &part.kind {
            PartKind::Delta => {}
            PartKind::Tau => steps.push((Label::Tau, Term { parts: vec![] })),
            PartKind::Action(action, data) => {
                let values = self.sheet.signature.values(data, &[]);
                let label = self.sheet.signature.label(*action, values);
                steps.push((label, Term { parts: vec![] }));
            }
            PartKind::Call(process, data) => {
                let values = self.sheet.signature.values(data, &[]);
                let known: Vec<_> = values.into_iter().map(Some).collect();
                let body = &self.sheet.processes[*process].body;
                self.choice_steps(&self.put(&known).choice(body), steps);
            }
            PartKind::Sum {
                variable,
                sort,
                body,
            } => {
                let mut known = vec![None; variable + 1];
                for value in 0..self.sheet.signature.size(*sort) {
                    known[*variable] = Some(value);
                    self.choice_steps(&self.put(&known).choice(body), steps);
                }
            }
            PartKind::Brackets(choice) => self.choice_steps(choice, steps),
        }
    }
}

impl Transitions for Terms<'_> {
    type State = Term;

    fn ended(&self, term: &Term) -> bool {
        term.parts.is_empty()
    }

    fn steps(&self, term: &Term) -> Vec<(Label, Term)> {
        let mut steps = Vec::new();
        if !term.parts.is_empty() {
            self.sequence_steps(&term.parts, &mut steps);
        }
        steps
    }
}

fn call(process: usize, values: &[u8]) -> Part {
    let data = values.iter().map(|&value| Data::Value(value)).collect();
    Part {
        place: 0,
        kind: PartKind::Call(process, data),
    }
}

/// A choice that is only a sequence is that sequence of parts, any other is one bracketed part.
fn closed(choice: &Choice) -> Term {
    let parts = match choice.as_slice() {
        [Conditional::Sequence(parts)] => parts.clone(),
        _ => vec![Part {
            place: 0,
            kind: PartKind::Brackets(choice.clone()),
        }],
    };
    Term { parts }
}
