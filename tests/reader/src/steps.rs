//! Steps of a stack by its table: by summand, then by values, last variable fastest.

use crate::search::Search;
use crate::stack::Frame;
use crate::table::{Summand, Table};
use crate::transitions::{Label, Transitions};

impl Transitions for Table {
    /// A stack of any depth, top frame last; each frame is an equation of this table with values
    /// in its sorts.
    type State = Vec<Frame>;

    fn ended(&self, stack: &Vec<Frame>) -> bool {
        stack.is_empty()
    }

    fn steps(&self, stack: &Vec<Frame>) -> Vec<(Label, Vec<Frame>)> {
        all_steps(self, stack)
    }
}

/// Every step of a stack, in order.
pub fn all_steps(table: &Table, stack: &[Frame]) -> Vec<(Label, Vec<Frame>)> {
    let mut steps = Vec::new();
    let Some((top, below)) = stack.split_last() else {
        return steps;
    };
    for summand in &table.equations[usize::from(top.equation)].summands {
        let mut search = Search::new(table, top, summand);
        search.each(&mut |values| steps.push(successor(table, below, summand, values)));
    }
    steps
}

/// Step k of a stack, from 0.
pub fn step(table: &Table, stack: &[Frame], k: u64) -> Option<(Label, Vec<Frame>)> {
    let (top, below) = stack.split_last()?;
    let mut k = k;
    for summand in &table.equations[usize::from(top.equation)].summands {
        let mut search = Search::new(table, top, summand);
        if search.seek(&mut k) {
            return Some(successor(table, below, summand, search.values()));
        }
    }
    None
}

/// The label, and the stack with the top frame replaced by the calls, first call on top.
fn successor(
    table: &Table,
    below: &[Frame],
    summand: &Summand,
    values: &[u8],
) -> (Label, Vec<Frame>) {
    let signature = &table.signature;
    let label = match summand.action {
        None => Label::Tau,
        Some(action) => signature.label(action, signature.values(&summand.arguments, values)),
    };
    let calls = summand.calls.iter().rev();
    let frames =
        calls.map(|call| Frame::new(call.equation, &signature.values(&call.arguments, values)));
    (label, below.iter().copied().chain(frames).collect())
}
