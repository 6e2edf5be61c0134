//! States with labelled transitions, equality to n steps between any two of them, and runs.

use std::collections::{HashMap, HashSet};
use std::fmt;
use std::hash::Hash;

/// A label is the action's name, the names of its sorts and its values (#104); tau is a label.
#[derive(Clone, Debug, PartialEq, Eq, Hash, PartialOrd, Ord)]
pub enum Label {
    /// Tau.
    Tau,
    /// An action's.
    Action {
        /// Its name.
        name: String,
        /// The names of its sorts.
        sorts: Vec<String>,
        /// A value of each sort.
        values: Vec<u8>,
    },
}

impl fmt::Display for Label {
    /// As the walk prints it: name, bracketed values by commas, no blanks; tau as `tau`.
    fn fmt(&self, f: &mut fmt::Formatter<'_>) -> fmt::Result {
        let (name, values) = match self {
            Label::Tau => return f.write_str("tau"),
            Label::Action { name, values, .. } => (name, values),
        };
        f.write_str(name)?;
        for (index, value) in values.iter().enumerate() {
            let before = if index == 0 { '(' } else { ',' };
            write!(f, "{before}{value}")?;
        }
        f.write_str(if values.is_empty() { "" } else { ")" })
    }
}

/// States that step by one sheet or one table.
pub trait Transitions {
    /// A state.
    type State: Clone + Eq + Hash;

    /// Whether the state has ended; only the ended process and the empty stack have.
    fn ended(&self, state: &Self::State) -> bool;

    /// Every step of the state: its label and the next state.
    fn steps(&self, state: &Self::State) -> Vec<(Label, Self::State)>;
}

/// Whether two states, each with its own transitions, are equal to n steps.
pub fn equal_to<A: Transitions, B: Transitions>(
    n: usize,
    left: (&A, &A::State),
    right: (&B, &B::State),
) -> bool {
    let mut game = Game {
        systems: (left.0, right.0),
        known: HashMap::new(),
    };
    game.equal(n, left.1, right.1)
}

struct Game<'g, A: Transitions, B: Transitions> {
    systems: (&'g A, &'g B),
    known: HashMap<(usize, A::State, B::State), bool>,
}

impl<A: Transitions, B: Transitions> Game<'_, A, B> {
    fn equal(&mut self, n: usize, left: &A::State, right: &B::State) -> bool {
        let (a, b) = self.systems;
        if a.ended(left) != b.ended(right) {
            return false;
        }
        let Some(fewer) = n.checked_sub(1) else {
            return true;
        };
        let key = (n, left.clone(), right.clone());
        if let Some(&known) = self.known.get(&key) {
            return known;
        }
        let answer = self.matched(fewer, &a.steps(left), &b.steps(right));
        self.known.insert(key, answer);
        answer
    }

    /// Each step of either is matched by a step of the other with the same label.
    fn matched(
        &mut self,
        n: usize,
        left: &[(Label, A::State)],
        right: &[(Label, B::State)],
    ) -> bool {
        let mut pair =
            |p: &(Label, A::State), q: &(Label, B::State)| p.0 == q.0 && self.equal(n, &p.1, &q.1);
        left.iter().all(|p| right.iter().any(|q| pair(p, q)))
            && right.iter().all(|q| left.iter().any(|p| pair(p, q)))
    }
}

/// Whether some run from the state bears the labels: steps, one after another, that bear them in
/// order.
pub fn bears<T: Transitions>(system: &T, state: &T::State, labels: &[Label]) -> bool {
    let mut reached = HashSet::from([state.clone()]);
    for label in labels {
        let steps = reached.iter().flat_map(|state| system.steps(state));
        let borne = steps.filter(|(borne, _)| borne == label);
        reached = borne.map(|(_, next)| next).collect();
    }
    !reached.is_empty()
}
