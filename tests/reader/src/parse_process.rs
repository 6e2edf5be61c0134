//! The form of right sides (question 5): choice, conditional, sequence, part.

use crate::parse::Parser;
use crate::syntax::{Choice, Conditional, Part, PartKind, Sequence};
use crate::token::Kind;

impl<'a> Parser<'_, 'a> {
    /// A choice is conditionals joined by `+`.
    pub(crate) fn choice(&mut self) -> Option<Choice<'a>> {
        self.joined("+", Parser::conditional)
    }

    /// A conditional is a sequence, or sequence `<|` data `|>` sequence.
    fn conditional(&mut self) -> Option<Conditional<'a>> {
        let yes = self.sequence()?;
        if !self.take(Kind::Mark("<|")) {
            return Some(Conditional::Sequence(yes));
        }
        let test = self.data()?;
        self.mark("|>")?;
        let no = self.sequence()?;
        Some(Conditional::Test { yes, test, no })
    }

    /// A sequence is parts joined by `.`.
    fn sequence(&mut self) -> Option<Sequence<'a>> {
        self.joined(".", Parser::part)
    }

    /// A part is delta, tau, a name with or without bracketed data, a sum, or a bracketed choice.
    fn part(&mut self) -> Option<Part<'a>> {
        let place = self.place()?;
        let kind = if self.take(Kind::Word("delta")) {
            PartKind::Delta
        } else if self.take(Kind::Word("tau")) {
            PartKind::Tau
        } else if self.take(Kind::Word("sum")) {
            self.sum()?
        } else if self.take(Kind::Mark("(")) {
            let choice = self.choice()?;
            self.mark(")")?;
            PartKind::Brackets(choice)
        } else {
            PartKind::Name(self.call()?)
        };
        Some(Part { place, kind })
    }

    /// What stands after the word in `sum(v:sort, choice)`.
    fn sum(&mut self) -> Option<PartKind<'a>> {
        self.mark("(")?;
        let variable = self.variable()?;
        self.mark(",")?;
        let body = self.choice()?;
        self.mark(")")?;
        Some(PartKind::Sum(variable, body))
    }
}
