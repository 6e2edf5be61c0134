//! The steps of a stack, one after another.

use std::iter::FusedIterator;

use crate::{Asked, Label, Refused, Stack};

/// A step of a stack.
#[derive(Clone, Debug, PartialEq, Eq)]
pub struct Step<'t> {
    /// Its number, from 0.
    pub k: u64,
    /// Its label and the stack that it leads to; refused, by 16, if that stack would have more than 64 frames.
    pub way: Result<(Label, Stack<'t>), Refused>,
}

/// All steps of a stack in order, by [`Stack::steps`].
#[derive(Clone, Debug)]
pub struct Steps<'t> {
    stack: Stack<'t>,
    next: Option<u64>,
}

impl<'t> Steps<'t> {
    pub(crate) fn new(stack: Stack<'t>) -> Self {
        let next = Some(0);
        Steps { stack, next }
    }
}

impl<'t> Iterator for Steps<'t> {
    type Item = Step<'t>;

    fn next(&mut self) -> Option<Step<'t>> {
        let k = self.next.take()?;
        let way = match self.stack.ask(k) {
            Ok(Asked::Step { label, stack }) => Ok((label, stack)),
            Ok(Asked::None | Asked::Ended) => return None,
            Err(refused) => Err(refused),
        };
        self.next = k.checked_add(1);
        Some(Step { k, way })
    }
}

impl FusedIterator for Steps<'_> {}
