//! States: closed process terms of a sheet, the ended process among them, and stacks of a table.

use crate::sheet::Sheet;
use crate::stack::Frame;
use crate::table::Table;
use crate::term::{Term, Terms};
use crate::transitions::{Label, Transitions};

/// A state; the ended process is the term without parts.
#[derive(Clone, Debug, PartialEq, Eq, Hash)]
pub enum State {
    /// A closed process term, or the ended process.
    Term(Term),
    /// A stack of any depth, top frame last.
    Stack(Vec<Frame>),
}

/// The terms of a sheet, where there is one, and the stacks of a table: each state steps by its own.
#[derive(Clone, Debug)]
pub struct States<'s> {
    terms: Option<Terms<'s>>,
    table: &'s Table,
}

impl<'s> States<'s> {
    /// The closed terms of the sheet and the stacks of its table.
    pub fn of(sheet: &'s Sheet, table: &'s Table) -> Self {
        let terms = Some(Terms::of(sheet));
        States { terms, table }
    }

    /// The stacks of a table.
    pub fn of_table(table: &'s Table) -> Self {
        States { terms: None, table }
    }

    /// The closed terms. Panics where there is no sheet.
    pub fn terms(&self) -> &Terms<'s> {
        self.terms.as_ref().expect("terms are those of a sheet")
    }
}

impl Transitions for States<'_> {
    type State = State;

    fn ended(&self, state: &State) -> bool {
        match state {
            State::Term(term) => self.terms().ended(term),
            State::Stack(stack) => self.table.ended(stack),
        }
    }

    fn steps(&self, state: &State) -> Vec<(Label, State)> {
        match state {
            State::Term(term) => to(State::Term, self.terms().steps(term)),
            State::Stack(stack) => to(State::Stack, self.table.steps(stack)),
        }
    }
}

fn to<T>(state: fn(T) -> State, steps: Vec<(Label, T)>) -> Vec<(Label, State)> {
    let steps = steps.into_iter();
    steps.map(|(label, next)| (label, state(next))).collect()
}
