//! The form of data (question 5): `!`, `==`, `/\` and `\/` bind in this order, from tightest.

use crate::data::Joint;
use crate::parse::Parser;
use crate::syntax::{Call, Data};
use crate::token::Kind;

impl<'a> Parser<'_, 'a> {
    /// Data is conjunctions joined by `\/`.
    pub(crate) fn data(&mut self) -> Option<Data<'a>> {
        let items = self.joined("\\/", Parser::conjunction)?;
        Some(Data::chain(Joint::Or, items))
    }

    /// A conjunction is comparisons joined by `/\`.
    fn conjunction(&mut self) -> Option<Data<'a>> {
        let items = self.joined("/\\", Parser::comparison)?;
        Some(Data::chain(Joint::And, items))
    }

    /// A comparison is a negation, or two with `==` between.
    fn comparison(&mut self) -> Option<Data<'a>> {
        let left = self.negation()?;
        if !self.take(Kind::Mark("==")) {
            return Some(left);
        }
        let right = self.negation()?;
        Some(Data::Equal(Box::new([left, right])))
    }

    /// A negation is an atom, with any number of `!` before it.
    fn negation(&mut self) -> Option<Data<'a>> {
        let mut count = 0;
        while self.take(Kind::Mark("!")) {
            count += 1;
        }
        let atom = self.atom()?;
        Some(if count == 0 {
            atom
        } else {
            Data::Not(count, Box::new(atom))
        })
    }

    /// An atom is a numeral, a variable, a function name with bracketed data, or data in brackets.
    fn atom(&mut self) -> Option<Data<'a>> {
        if let Some(value) = self.numeral() {
            return Some(Data::Numeral(value));
        }
        if self.take(Kind::Mark("(")) {
            let data = self.data()?;
            self.mark(")")?;
            return Some(data);
        }
        let call = self.call()?;
        Some(if call.arguments.is_empty() {
            Data::Variable(call.name)
        } else {
            Data::Apply(call)
        })
    }

    /// A name with or without bracketed data.
    pub(crate) fn call(&mut self) -> Option<Call<'a>> {
        let name = self.name()?;
        let arguments = self.bracketed(Parser::data)?;
        Some(Call { name, arguments })
    }
}
