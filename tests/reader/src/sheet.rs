//! A sheet with its names looked up: the processes over the sheet's signature.

use std::hash::{Hash, Hasher};

use crate::names::Names;
use crate::signature::{Data, Signature};

/// An accepted sheet (questions 1 to 9).
#[derive(Clone, Debug)]
pub struct Sheet {
    /// Sorts, functions and actions.
    pub signature: Signature,
    /// The written processes, in order.
    pub processes: Vec<Process>,
    /// The process of the `init` line.
    pub start: usize,
    /// Its data, without variables.
    pub start_data: Vec<Data>,
    pub(crate) names: Names,
}

/// A written process: its parameters' sorts and its right side.
#[derive(Clone, Debug)]
pub struct Process {
    /// Sorts of the parameters; they are variables 0, 1 and so on of the right side.
    pub parameters: Vec<usize>,
    /// The right side.
    pub body: Choice,
}

/// Conditionals joined by `+`.
pub type Choice = Vec<Conditional>;

/// A sequence, or sequence `<|` data `|>` sequence.
#[derive(Clone, Debug, PartialEq, Eq, Hash)]
pub enum Conditional {
    /// A sequence alone.
    Sequence(Sequence),
    /// The yes part, the condition and the no part.
    Test {
        /// Taken where the condition is 1.
        yes: Sequence,
        /// The condition.
        test: Data,
        /// Taken where the condition is 0.
        no: Sequence,
    },
}

/// Parts joined by `.`, at least one, with brackets that hold only a sequence flattened.
pub type Sequence = Vec<Part>;

/// A part and where it stands. Parts are equal if they are the same process, wherever they stand.
#[derive(Clone, Debug)]
pub struct Part {
    /// The place of the part's first character, own brackets counted.
    pub place: usize,
    /// What the part is.
    pub kind: PartKind,
}

/// The forms of a part.
#[derive(Clone, Debug, PartialEq, Eq, Hash)]
pub enum PartKind {
    /// No step.
    Delta,
    /// Tau.
    Tau,
    /// An action with its data.
    Action(usize, Vec<Data>),
    /// A call of a process with its data.
    Call(usize, Vec<Data>),
    /// `sum(v:sort, choice)`.
    Sum {
        /// The number of the variable: how many are in scope outside.
        variable: usize,
        /// Its sort.
        sort: usize,
        /// The choice inside.
        body: Choice,
    },
    /// A bracketed choice that is more than a sequence.
    Brackets(Choice),
}

impl PartialEq for Part {
    fn eq(&self, other: &Self) -> bool {
        self.kind == other.kind
    }
}

impl Eq for Part {}

impl Hash for Part {
    fn hash<H: Hasher>(&self, state: &mut H) {
        self.kind.hash(state);
    }
}
