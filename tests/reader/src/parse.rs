//! The form of a sheet (question 5): its lines, in order. `None` is a wrong form.

use crate::limits::ARITY;
use crate::syntax::{Action, Call, Choice, Data, Function, Process, Sheet, Variable};
use crate::token::{Kind, Token};

/// The tokens not read yet.
pub(crate) struct Parser<'t, 'a> {
    tokens: &'t [Token<'a>],
}

/// The whole token list as a sheet.
pub fn sheet<'a>(tokens: &[Token<'a>]) -> Option<Sheet<'a>> {
    let mut parser = Parser { tokens };
    let sheet = Sheet {
        sorts: parser.lines("sort", Parser::sort_line)?,
        functions: parser.lines("func", Parser::function_line)?,
        actions: parser.lines("act", Parser::action_line)?,
        processes: parser.lines("proc", Parser::process_line)?,
        init: parser.init_line()?,
    };
    let whole = parser.tokens.is_empty() && !sheet.processes.is_empty();
    whole.then_some(sheet)
}

/// The whole token list as a choice.
pub fn closed_choice<'a>(tokens: &[Token<'a>]) -> Option<Choice<'a>> {
    let mut parser = Parser { tokens };
    let choice = parser.choice()?;
    parser.tokens.is_empty().then_some(choice)
}

impl<'a> Parser<'_, 'a> {
    /// What the next token is, if there is one.
    pub(crate) fn peek(&self) -> Option<Kind<'a>> {
        Some(self.tokens.first()?.kind)
    }

    /// The next token's place, if there is one.
    pub(crate) fn place(&self) -> Option<usize> {
        Some(self.tokens.first()?.place)
    }

    /// Takes the next token if it is this one.
    pub(crate) fn take(&mut self, kind: Kind) -> bool {
        let taken = self.peek() == Some(kind);
        if taken {
            self.tokens = &self.tokens[1..];
        }
        taken
    }

    /// Takes this mark, or the form is wrong.
    pub(crate) fn mark(&mut self, mark: &'static str) -> Option<()> {
        self.take(Kind::Mark(mark)).then_some(())
    }

    /// Takes a name, or the form is wrong.
    pub(crate) fn name(&mut self) -> Option<&'a str> {
        let Some(Kind::Name(name)) = self.peek() else {
            return None;
        };
        self.tokens = &self.tokens[1..];
        Some(name)
    }

    /// Takes a numeral, or the form is wrong.
    pub(crate) fn numeral(&mut self) -> Option<u8> {
        let Some(Kind::Numeral(value)) = self.peek() else {
            return None;
        };
        self.tokens = &self.tokens[1..];
        Some(value)
    }

    /// One or more items with this mark between.
    pub(crate) fn joined<T>(
        &mut self,
        mark: &'static str,
        item: fn(&mut Self) -> Option<T>,
    ) -> Option<Vec<T>> {
        let mut items = vec![item(self)?];
        while self.take(Kind::Mark(mark)) {
            items.push(item(self)?);
        }
        Some(items)
    }

    /// A bracketed list by commas, or none where no bracket opens.
    pub(crate) fn bracketed<T>(&mut self, item: fn(&mut Self) -> Option<T>) -> Option<Vec<T>> {
        if !self.take(Kind::Mark("(")) {
            return Some(Vec::new());
        }
        let items = self.joined(",", item)?;
        self.mark(")")?;
        Some(items)
    }

    fn lines<T>(&mut self, word: &str, line: fn(&mut Self) -> Option<T>) -> Option<Vec<T>> {
        let mut lines = Vec::new();
        while self.take(Kind::Word(word)) {
            lines.push(line(self)?);
            self.mark(";")?;
        }
        Some(lines)
    }

    fn sort_line(&mut self) -> Option<(&'a str, u8)> {
        Some((self.name()?, self.numeral()?))
    }

    fn function_line(&mut self) -> Option<Function<'a>> {
        let name = self.name()?;
        self.mark(":")?;
        let arguments = self.sorts()?;
        self.mark("->")?;
        let result = self.name()?;
        self.mark("=")?;
        let values = self.joined(",", Parser::numeral)?;
        Some(Function {
            name,
            arguments,
            result,
            values,
        })
    }

    fn action_line(&mut self) -> Option<Action<'a>> {
        let name = self.name()?;
        let arguments = if self.take(Kind::Mark(":")) {
            self.sorts()?
        } else {
            Vec::new()
        };
        Some(Action { name, arguments })
    }

    /// `sort`, or `sort # sort`.
    fn sorts(&mut self) -> Option<Vec<&'a str>> {
        let sorts = self.joined("#", Parser::name)?;
        (sorts.len() <= ARITY).then_some(sorts)
    }

    fn process_line(&mut self) -> Option<Process<'a>> {
        let name = self.name()?;
        let parameters = self.bracketed(Parser::variable)?;
        self.mark("=")?;
        let body = self.choice()?;
        Some(Process {
            name,
            parameters,
            body,
        })
    }

    /// `v:sort`.
    pub(crate) fn variable(&mut self) -> Option<Variable<'a>> {
        let name = self.name()?;
        self.mark(":")?;
        let sort = self.name()?;
        Some(Variable { name, sort })
    }

    fn init_line(&mut self) -> Option<Call<'a>> {
        self.take(Kind::Word("init")).then_some(())?;
        let call = self.call()?;
        self.mark(";")?;
        let closed = !call.arguments.iter().any(Data::has_bare_name);
        closed.then_some(call)
    }
}
