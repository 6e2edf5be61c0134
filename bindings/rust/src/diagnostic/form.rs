//! Question 5: the tokens of a sheet as they are read, and what is said where another one was wanted.

use super::finding::{Finding, Found, Span};
use super::tokens::{Kind, Token};
use super::tree::{Name, Numeral};

/// The lines of a sheet, in order.
pub const LINES: [&str; 5] = ["sort", "func", "act", "proc", "init"];

/// Tokens, and how far they are read.
pub struct Parser<'t, 's> {
    tokens: &'t [Token<'s>],
    at: usize,
    /// The brackets that are open.
    open: Vec<Span>,
    /// The word of each line that was read.
    pub lines: Vec<(&'static str, Span)>,
}

/// A token in a message.
pub fn shown(kind: Kind) -> String {
    match kind {
        Kind::Name(text) | Kind::Word(text) | Kind::Mark(text) => format!("`{text}`"),
        Kind::Numeral(value) => format!("`{value}`"),
        Kind::End => "the end of the sheet".to_string(),
    }
}

impl<'t, 's> Parser<'t, 's> {
    /// Nothing is read yet.
    pub fn new(tokens: &'t [Token<'s>]) -> Self {
        Parser {
            tokens,
            at: 0,
            open: Vec::new(),
            lines: Vec::new(),
        }
    }

    fn token(&self, at: usize) -> Token<'s> {
        let last = self.tokens.len() - 1;
        self.tokens[at.min(last)]
    }

    pub fn peek(&self) -> Kind<'s> {
        self.token(self.at).kind
    }

    /// The token so many behind the next one.
    pub fn peek_at(&self, more: usize) -> Kind<'s> {
        self.token(self.at + more).kind
    }

    /// The place of the next token.
    pub fn span(&self) -> Span {
        self.token(self.at).span
    }

    /// The last token that was read.
    pub fn last(&self) -> Token<'s> {
        self.read_before(1)
    }

    /// The token that was read so many before the next one.
    pub fn read_before(&self, count: usize) -> Token<'s> {
        self.token(self.at.saturating_sub(count))
    }

    /// Whether nothing is read yet.
    pub fn at_start(&self) -> bool {
        self.at == 0
    }

    /// Takes the next token if it is this one.
    pub fn take(&mut self, kind: Kind) -> bool {
        let taken = self.peek() == kind;
        if taken {
            match kind {
                Kind::Mark("(") => self.open.push(self.span()),
                Kind::Mark(")") => drop(self.open.pop()),
                _ => {}
            }
            self.at += 1;
        }
        taken
    }

    /// Takes this mark.
    pub fn mark(&mut self, mark: &'static str) -> Found<()> {
        match self.take(Kind::Mark(mark)) {
            true => Ok(()),
            false => Err(self.wrong(&format!("`{mark}`"))),
        }
    }

    /// Takes a name; `what` says which one is wanted.
    pub fn name(&mut self, what: &str) -> Found<Name<'s>> {
        let span = self.span();
        match self.peek() {
            Kind::Name(text) => {
                self.at += 1;
                Ok(Name { text, span })
            }
            Kind::Word(word) if !(LINES.contains(&word) && self.begins_line()) => {
                let message = format!("`{word}` is a word of the language, and no name");
                Err(Finding::new(5, span, message).label(format!("{what} is wanted here")))
            }
            Kind::Numeral(_) if matches!(self.peek_at(1), Kind::Name(_)) => {
                let help = "a name begins with a letter".to_string();
                Err(self.wrong(what).help(help))
            }
            _ => Err(self.wrong(what)),
        }
    }

    /// Whether the next token begins a line: a line's word with a name behind it.
    fn begins_line(&self) -> bool {
        matches!(self.peek_at(1), Kind::Name(_))
    }

    /// Takes a numeral; `what` says what for.
    pub fn numeral(&mut self, what: &str) -> Found<Numeral> {
        let span = self.span();
        match self.peek() {
            Kind::Numeral(value) => {
                self.at += 1;
                Ok(Numeral { value, span })
            }
            _ => Err(self.wrong(what)),
        }
    }

    /// One or more items with this mark between.
    pub fn joined<T>(
        &mut self,
        mark: &'static str,
        mut item: impl FnMut(&mut Self) -> Found<T>,
    ) -> Found<Vec<T>> {
        let mut items = vec![item(self)?];
        while self.take(Kind::Mark(mark)) {
            items.push(item(self)?);
        }
        Ok(items)
    }

    /// What was wanted, and what stands there. What is missing before a new line, or at the end, is missing behind the
    /// last token.
    pub fn wrong(&self, wanted: &str) -> Box<Finding> {
        let found = self.peek();
        let over = match found {
            Kind::Word(word) => LINES.contains(&word),
            kind => kind == Kind::End,
        };
        let finding = if over && self.at > 0 {
            self.missing(wanted)
        } else {
            let message = format!("expected {wanted}, found {}", shown(found));
            Finding::new(5, self.span(), message)
        };
        self.with_brackets(finding, found, over)
    }

    /// What is missing behind the last token.
    pub fn missing(&self, wanted: &str) -> Box<Finding> {
        let (last, next) = (self.last(), shown(self.peek()));
        let message = format!("expected {wanted} behind {}", shown(last.kind));
        Finding::new(5, last.span.behind(), message).label(format!("before {next}"))
    }

    /// Names the bracket that is open where a line ends, and that none is open at a `)`.
    fn with_brackets(&self, finding: Box<Finding>, found: Kind, over: bool) -> Box<Finding> {
        let over = over || found == Kind::Mark(";");
        match self.open.last() {
            Some(&open) if over => finding.note(open, "this bracket is not closed"),
            None if found == Kind::Mark(")") => finding.label("closes no bracket"),
            _ => finding,
        }
    }

    /// Brackets with nothing in them; the next token closes them.
    pub fn empty_brackets(&self) -> Box<Finding> {
        let span = self.last().span.to(self.span());
        Finding::new(5, span, "empty brackets").help("leave them out".to_string())
    }
}
