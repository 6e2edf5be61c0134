//! The linear table: per equation, the heads of its right side as summands.

use crate::layout::Layout;
use crate::signature::{Data, Signature};
use crate::stack::Frame;

/// A table within all limits and rightly sorted.
#[derive(Clone, Debug, PartialEq, Eq)]
pub struct Table {
    /// How its stream gives the sorts.
    pub layout: Layout,
    /// Sorts, functions and actions.
    pub signature: Signature,
    /// The equations, written ones first where the table comes from a sheet.
    pub equations: Vec<Equation>,
    /// The start equation.
    pub start: usize,
    /// Its data, evaluated.
    pub start_values: Vec<u8>,
}

/// An equation: sorts of the parameters, and the summands in order.
#[derive(Clone, Debug, PartialEq, Eq)]
pub struct Equation {
    /// Sorts of the parameters.
    pub parameters: Vec<usize>,
    /// The summands.
    pub summands: Vec<Summand>,
}

/// A summand (a head): sum variables, conditions, an action and a list of calls. In its data the
/// parameters are numbered first, then the sum variables.
#[derive(Clone, Debug, PartialEq, Eq)]
pub struct Summand {
    /// Sorts of the sum variables.
    pub variables: Vec<usize>,
    /// The conditions.
    pub conditions: Vec<Condition>,
    /// The action, or `None` for tau.
    pub action: Option<usize>,
    /// The action's data.
    pub arguments: Vec<Data>,
    /// The calls, first one on top.
    pub calls: Vec<Call>,
}

/// A condition (a guard) with its wanted value.
#[derive(Clone, Debug, PartialEq, Eq)]
pub struct Condition {
    /// 1 in the yes part, 0 in the no part.
    pub wanted: u8,
    /// The tested data, of sort Bool.
    pub data: Data,
}

/// A call of an equation.
#[derive(Clone, Debug, PartialEq, Eq)]
pub struct Call {
    /// The equation's number.
    pub equation: usize,
    /// Data for its parameters.
    pub arguments: Vec<Data>,
}

impl Table {
    /// The stack of the start equation alone, its data evaluated.
    pub fn start_stack(&self) -> Vec<Frame> {
        vec![Frame::new(self.start, &self.start_values)]
    }
}
