//! Question 5, the form of right sides: choice, conditional, sequence, part.

use super::finding::{Finding, Found, Span};
use super::form::{shown, Parser};
use super::tokens::Kind;
use super::tree::{Choice, Conditional, Part, PartKind, Sequence};

const CONDITIONAL: &str = "a conditional is `p <| c |> q`: p if c is 1, else q";

impl<'s> Parser<'_, 's> {
    /// Conditionals joined by `+`.
    pub fn choice(&mut self) -> Found<Choice<'s>> {
        self.joined("+", Parser::conditional)
    }

    /// A sequence, or sequence `<|` data `|>` sequence.
    fn conditional(&mut self) -> Found<Conditional<'s>> {
        let yes = self.sequence()?;
        let opening = self.span();
        if !self.take(Kind::Mark("<|")) {
            return Ok(Conditional { yes, test: None });
        }
        let test = self.data()?;
        if !self.take(Kind::Mark("|>")) {
            return Err(self.behind_data("`|>` or an operator", opening));
        }
        let no = self.sequence()?;
        if self.peek() == Kind::Mark("<|") {
            let help = "put brackets around one of the two: `(p <| c |> q) <| d |> r`".to_string();
            return Err(Finding::new(5, self.span(), "conditionals do not chain")
                .note(opening, "the first one")
                .help(help));
        }
        Ok(Conditional {
            yes,
            test: Some((test, no)),
        })
    }

    /// Parts joined by `.`.
    fn sequence(&mut self) -> Found<Sequence<'s>> {
        self.joined(".", Parser::part)
    }

    fn part(&mut self) -> Found<Part<'s>> {
        let from = self.span();
        let kind = match self.peek() {
            Kind::Word("delta") => self.word("delta", PartKind::Delta),
            Kind::Word("tau") => self.word("tau", PartKind::Tau),
            Kind::Word("sum") => self.sum()?,
            Kind::Mark("(") => self.brackets(from)?,
            Kind::Name(_) => PartKind::Named(self.call()?),
            found => return Err(self.no_part(found)),
        };
        let span = from.to(self.last().span);
        Ok(Part { span, kind })
    }

    fn word(&mut self, word: &str, kind: PartKind<'s>) -> PartKind<'s> {
        self.take(Kind::Word(word));
        kind
    }

    fn brackets(&mut self, from: Span) -> Found<PartKind<'s>> {
        self.take(Kind::Mark("("));
        if self.peek() == Kind::Mark(")") {
            return Err(self.empty_brackets());
        }
        let choice = self.choice()?;
        self.close(from)?;
        Ok(PartKind::Brackets(choice))
    }

    /// `sum(v: sort, choice)`.
    fn sum(&mut self) -> Found<PartKind<'s>> {
        self.take(Kind::Word("sum"));
        let example = || "a sum is written `sum(d: D, p)`".to_string();
        let from = self.span();
        self.mark("(").map_err(|wrong| wrong.help(example()))?;
        let variable = self.variable()?;
        if !self.take(Kind::Mark(",")) {
            let message = format!("expected `,`, found {}", shown(self.peek()));
            return Err(Finding::new(5, self.span(), message).help(example()));
        }
        if matches!(self.peek(), Kind::Name(_)) && self.peek_at(1) == Kind::Mark(":") {
            let help = "write one sum in another: `sum(d: D, sum(e: D, p))`".to_string();
            return Err(Finding::new(5, self.span(), "a second variable in a sum")
                .label("a sum has one")
                .help(help));
        }
        let body = self.choice()?;
        self.close(from)?;
        Ok(PartKind::Sum(variable, body))
    }

    /// Closes the bracket that was opened there, behind a choice.
    fn close(&mut self, open: Span) -> Found<()> {
        if self.take(Kind::Mark(")")) {
            return Ok(());
        }
        let wrong = self.behind_part("`.`, `+`, `<|` or `)`");
        Err(wrong.unless_noted(open, "opened here"))
    }

    /// What is found where a part should stand.
    fn no_part(&self, found: Kind) -> Box<Finding> {
        let wrong = self.wrong("an action, a process, `delta`, `tau`, `sum` or `(`");
        match found {
            Kind::Numeral(_) => {
                wrong.help("numbers stand in brackets behind a name, or in a condition".to_string())
            }
            Kind::Mark("!") => wrong.help(
                "`!` stands in data: between `<|` and `|>`, or in brackets behind a name"
                    .to_string(),
            ),
            Kind::Mark("+") => wrong.help("`+` stands between two ways to go on".to_string()),
            Kind::Mark(".") => wrong.help("`.` stands between two parts".to_string()),
            _ => match self.last().kind {
                Kind::Mark(mark @ ("." | "+")) => {
                    wrong.help(format!("nothing stands behind the `{mark}`"))
                }
                Kind::Mark("=") => wrong.help("to do nothing is `delta`".to_string()),
                _ => wrong,
            },
        }
    }

    /// What is found behind a part, where these were wanted: mostly an operator is missing, or stands there that only
    /// data has.
    pub fn behind_part(&self, wanted: &str) -> Box<Finding> {
        let at = |message: &str| Finding::new(5, self.span(), message);
        let wrong = self.wrong(wanted);
        match self.peek() {
            _ if self.last().kind == Kind::Name("if") => wrong.help(CONDITIONAL.to_string()),
            Kind::Name(_)
            | Kind::Numeral(_)
            | Kind::Mark("(")
            | Kind::Word("delta" | "tau" | "sum") => self.missing(wanted),
            Kind::Mark("->") => wrong.help(CONDITIONAL.to_string()),
            Kind::Mark(mark @ ("==" | "/\\" | "\\/" | "!")) => {
                let message = format!("`{mark}` stands outside of data");
                let help =
                    "data stand between `<|` and `|>`, or in brackets behind a name".to_string();
                at(&message).help(help)
            }
            Kind::Mark("|>") => at("`|>` without `<|` before it").help(CONDITIONAL.to_string()),
            Kind::Mark("=") => wrong.help(
                "a process begins with `proc`, and the line before it ends with `;`".to_string(),
            ),
            _ => wrong,
        }
    }
}
