//! Reading data terms (question 14): rightly sorted, in prefix order, within their nodes.

use crate::data::{Data, Joint};
use crate::decode::{Reader, Rows};
use crate::limits;
use crate::signature::BOOL;
use crate::stream::{AND, EQUAL, FUNCTION, NOT, OR, VARIABLE};

impl Rows<'_> {
    /// One term of each sort.
    pub(crate) fn terms(
        &self,
        reader: &mut Reader,
        scope: &[usize],
        sorts: &[usize],
    ) -> Option<Vec<Data>> {
        sorts
            .iter()
            .map(|&sort| self.term(reader, scope, sort))
            .collect()
    }

    /// A term of this sort, its variables of the sorts in scope.
    pub(crate) fn term(&self, reader: &mut Reader, scope: &[usize], sort: usize) -> Option<Data> {
        let mut term = Term {
            rows: self,
            scope,
            nodes_left: limits::TERM_NODES,
        };
        term.node(reader, sort)
    }
}

/// A term of which some nodes are read.
struct Term<'r> {
    rows: &'r Rows<'r>,
    scope: &'r [usize],
    nodes_left: usize,
}

impl Term<'_> {
    fn node(&mut self, reader: &mut Reader, sort: usize) -> Option<Data> {
        self.nodes_left = self.nodes_left.checked_sub(1)?;
        match reader.byte()? {
            value @ ..VARIABLE => {
                let size = self.rows.signature.size(sort);
                (value < size).then_some(Data::Value(value))
            }
            variable @ VARIABLE..FUNCTION => {
                let index = usize::from(variable - VARIABLE);
                (*self.scope.get(index)? == sort).then_some(Data::Variable(index))
            }
            function @ FUNCTION..NOT => {
                self.function(reader, usize::from(function - FUNCTION), sort)
            }
            operator if sort == BOOL => self.operator(reader, operator),
            _ => None,
        }
    }

    fn function(&mut self, reader: &mut Reader, index: usize, sort: usize) -> Option<Data> {
        let function = self.rows.signature.functions.get(index)?;
        if function.result != sort {
            return None;
        }
        let arguments = (function.arguments.iter())
            .map(|&sort| self.node(reader, sort))
            .collect::<Option<_>>()?;
        Some(Data::Apply(index, arguments))
    }

    /// What an operator stands over; all of them give Bool.
    fn operator(&mut self, reader: &mut Reader, operator: u8) -> Option<Data> {
        match operator {
            NOT => Some(Data::not(1, self.node(reader, BOOL)?)),
            EQUAL => {
                let sort = reader.index(self.rows.signature.sorts.len())?;
                let [left, right] = self.both(reader, sort)?;
                Some(Data::equal(sort, left, right))
            }
            AND | OR => {
                let joint = if operator == AND {
                    Joint::And
                } else {
                    Joint::Or
                };
                let [left, right] = self.both(reader, BOOL)?;
                Some(Data::joined(joint, left, right))
            }
            _ => None,
        }
    }

    fn both(&mut self, reader: &mut Reader, sort: usize) -> Option<[Data; 2]> {
        Some([self.node(reader, sort)?, self.node(reader, sort)?])
    }
}
