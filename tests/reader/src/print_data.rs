//! Data printed with the fewest brackets that read back the same.

use crate::data::{Data, Joint};
use crate::print::Printer;

/// How tightly data binds: `\/` least, then `/\`, `==`, `!`, and all that has no operator outside.
#[derive(Clone, Copy, PartialEq, Eq, PartialOrd, Ord)]
enum Level {
    Or,
    And,
    Equal,
    Not,
    Atom,
}

fn level(data: &Data) -> Level {
    match data {
        Data::Joined(Joint::Or, _) => Level::Or,
        Data::Joined(Joint::And, _) => Level::And,
        Data::Equal(..) => Level::Equal,
        Data::Not(..) => Level::Not,
        Data::Value(_) | Data::Variable(_) | Data::Apply(..) => Level::Atom,
    }
}

impl Printer<'_> {
    /// Data in brackets, or none where there is none.
    pub(crate) fn arguments(&mut self, arguments: &[Data]) {
        self.bracketed(arguments, |to, _, data| to.data(data));
    }

    /// Data where any may stand.
    pub(crate) fn data(&mut self, data: &Data) {
        match data {
            Data::Value(value) => self.tokens(&[&value.to_string()]),
            Data::Variable(index) => self.variable_name(*index),
            Data::Apply(index, arguments) => {
                self.function(*index);
                self.arguments(arguments);
            }
            Data::Not(count, inner) => {
                (0..*count).for_each(|_| self.tokens(&["!"]));
                self.operand(inner, Level::Not);
            }
            Data::Equal(_, sides) => self.operands(&sides[..], "==", Level::Not),
            Data::Joined(Joint::And, chain) => self.operands(chain, "/\\", Level::Equal),
            Data::Joined(Joint::Or, chain) => self.operands(chain, "\\/", Level::And),
        }
    }

    /// The first of a chain is never joined by the same, so all need the next level.
    fn operands(&mut self, operands: &[Data], joint: &str, needed: Level) {
        self.joined(operands, joint, |to, _, data| to.operand(data, needed));
    }

    /// Brackets stand exactly where the operand binds less than its place needs.
    fn operand(&mut self, data: &Data, needed: Level) {
        if level(data) < needed {
            self.tokens(&["("]);
            self.data(data);
            self.tokens(&[")"]);
        } else {
            self.data(data);
        }
    }
}
