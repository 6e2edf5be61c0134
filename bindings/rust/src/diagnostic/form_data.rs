//! Question 5, the form of data: `!`, `==`, `/\` and `\/` bind in this order, from tightest.

use super::finding::{Finding, Found, Span};
use super::form::Parser;
use super::tokens::Kind;
use super::tree::{Call, Data, DataKind};

impl<'s> Parser<'_, 's> {
    /// Conjunctions joined by `\/`.
    pub fn data(&mut self) -> Found<Data<'s>> {
        let items = self.joined("\\/", Parser::conjunction)?;
        Ok(chain("\\/", items))
    }

    /// Comparisons joined by `/\`.
    fn conjunction(&mut self) -> Found<Data<'s>> {
        let items = self.joined("/\\", Parser::comparison)?;
        Ok(chain("/\\", items))
    }

    /// A negation, or two with `==` between.
    fn comparison(&mut self) -> Found<Data<'s>> {
        let left = self.negation()?;
        let first = self.span();
        if !self.take(Kind::Mark("==")) {
            return Ok(left);
        }
        let right = self.negation()?;
        if self.peek() == Kind::Mark("==") {
            let help = "compare two by two: `x == y /\\ y == z`".to_string();
            return Err(Finding::new(5, self.span(), "`==` does not chain")
                .note(first, "the first one")
                .help(help));
        }
        let span = left.span.to(right.span);
        let kind = DataKind::Equal(Box::new([left, right]));
        Ok(Data { span, kind })
    }

    /// An atom, with any number of `!` before it.
    fn negation(&mut self) -> Found<Data<'s>> {
        let from = self.span();
        let mut count = 0;
        while self.take(Kind::Mark("!")) {
            count += 1;
        }
        let atom = self.atom()?;
        if count == 0 {
            return Ok(atom);
        }
        let span = from.to(atom.span);
        let kind = DataKind::Not(count, Box::new(atom));
        Ok(Data { span, kind })
    }

    /// A numeral, a variable, a function with its data, or data in brackets.
    fn atom(&mut self) -> Found<Data<'s>> {
        let from = self.span();
        match self.peek() {
            Kind::Numeral(value) => {
                self.numeral("a numeral")?;
                let kind = DataKind::Numeral(value);
                Ok(Data { span: from, kind })
            }
            Kind::Mark("(") => {
                self.take(Kind::Mark("("));
                let data = self.data()?;
                if !self.take(Kind::Mark(")")) {
                    return Err(self.behind_data("`)` or an operator", from));
                }
                let span = from.to(self.last().span);
                Ok(Data { span, ..data })
            }
            Kind::Name(_) => {
                let call = self.call()?;
                let span = call.span;
                let kind = match call.arguments.is_empty() {
                    true => DataKind::Variable(call.name),
                    false => DataKind::Apply(call),
                };
                Ok(Data { span, kind })
            }
            found => Err(self.no_data(found)),
        }
    }

    /// A name with or without bracketed data.
    pub fn call(&mut self) -> Found<Call<'s>> {
        let name = self.name("a name")?;
        let opening = self.span();
        let mut arguments = Vec::new();
        if self.take(Kind::Mark("(")) {
            if self.peek() == Kind::Mark(")") {
                let help = format!("leave them out: `{}`", name.text);
                return Err(self.empty_brackets().help(help));
            }
            arguments = self.joined(",", Parser::data)?;
            if !self.take(Kind::Mark(")")) {
                let like_sum = name.text.eq_ignore_ascii_case("sum");
                return Err(match (self.peek(), like_sum) {
                    (Kind::Mark(":"), true) => {
                        let message = format!("`{}` is no word of the language", name.text);
                        Finding::new(5, name.span, message).help("did you mean `sum`?".to_string())
                    }
                    _ => self.behind_data("`,`, `)` or an operator", opening),
                });
            }
        }
        let span = name.span.to(self.last().span);
        Ok(Call {
            name,
            arguments,
            span,
        })
    }

    /// What is found where data should stand.
    fn no_data(&self, found: Kind) -> Box<Finding> {
        let wrong = self.wrong("a numeral, a variable, a function or `(`");
        match (self.last().kind, found) {
            (_, Kind::Word(word @ ("delta" | "tau" | "sum"))) => {
                let message = format!("`{word}` is part of a process, and data are wanted here");
                Finding::new(5, self.span(), message)
            }
            (Kind::Mark("!"), Kind::Mark("=")) => wrong.help("unlike is `!(x == y)`".to_string()),
            (Kind::Mark("=="), Kind::Mark("=")) => wrong.help("did you mean `==`?".to_string()),
            _ => wrong,
        }
    }

    /// What is found behind data, where these were wanted to close what begins there.
    pub fn behind_data(&self, wanted: &str, opening: Span) -> Box<Finding> {
        let wrong = self.wrong(wanted);
        let arithmetic = "there is no arithmetic: a function lists its values, as in `func up: D -> D = 1, 2, 2;`";
        match (self.peek(), self.peek_at(1)) {
            (Kind::Mark("="), _) => wrong.help("did you mean `==`?".to_string()),
            (Kind::Mark("!"), Kind::Mark("=")) => wrong.help("unlike is `!(x == y)`".to_string()),
            (Kind::Mark("+"), Kind::Numeral(_)) => wrong.help(arithmetic.to_string()),
            (Kind::Name("and"), _) => wrong.help("did you mean `/\\`?".to_string()),
            (Kind::Name("or"), _) => wrong.help("did you mean `\\/`?".to_string()),
            (Kind::Name(_) | Kind::Numeral(_), _) => self.missing(wanted),
            _ => wrong.unless_noted(opening, "is this not closed?"),
        }
    }
}

/// One or more data with this joint between.
fn chain<'s>(joint: &'static str, mut items: Vec<Data<'s>>) -> Data<'s> {
    if items.len() == 1 {
        return items.remove(0);
    }
    let span = items[0].span.to(items[items.len() - 1].span);
    let kind = DataKind::Joined(joint, items);
    Data { span, kind }
}
