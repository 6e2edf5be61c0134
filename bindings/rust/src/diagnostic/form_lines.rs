//! Question 5, the form of a sheet: its lines, in order.

use super::finding::{Finding, Found};
use super::form::Parser;
use super::tokens::{Kind, Token};
use super::tree::{Action, Data, Function, Name, Process, Sheet, Sort, Variable};

const TWO_SORTS: &str = "two sorts are joined by `#`: `D # E`";

/// The tokens as a sheet.
pub fn sheet<'s>(tokens: &[Token<'s>]) -> Found<Sheet<'s>> {
    let mut parser = Parser::new(tokens);
    let sorts = parser.lines("sort", Parser::sort_line)?;
    let functions = parser.lines("func", Parser::function_line)?;
    let actions = parser.lines("act", Parser::action_line)?;
    let processes = parser.lines("proc", Parser::process_line)?;
    if parser.peek() != Kind::Word("init") {
        return Err(parser.no_line(&processes));
    }
    let init = parser.span();
    if processes.is_empty() {
        let message = "no line `proc` stands before `init`";
        return Err(Finding::new(5, init, message)
            .help("`init` calls a process: `proc X = ..;`".to_string()));
    }
    parser.take(Kind::Word("init"));
    parser.lines.push(("init", init));
    let init = parser.call()?;
    parser.end_of_line("init")?;
    if let Some(name) = init.arguments.iter().find_map(Data::bare_name) {
        return Err(bare_name(name));
    }
    if parser.peek() != Kind::End {
        return Err(parser.behind_init());
    }
    Ok(Sheet {
        sorts,
        functions,
        actions,
        processes,
        init,
    })
}

fn bare_name(name: Name) -> Box<Finding> {
    let help = match name.text {
        "true" => "write 1",
        "false" => "write 0",
        _ => "the data of `init` are numerals, and functions and operators over them",
    };
    let message = format!(
        "`{}` stands in `init`, where no variable is in scope",
        name.text
    );
    Finding::new(5, name.span, message).help(help.to_string())
}

impl<'s> Parser<'_, 's> {
    fn lines<T>(&mut self, word: &'static str, line: fn(&mut Self) -> Found<T>) -> Found<Vec<T>> {
        let mut lines = Vec::new();
        while self.peek() == Kind::Word(word) {
            self.lines.push((word, self.span()));
            self.take(Kind::Word(word));
            lines.push(line(self)?);
            self.end_of_line(word)?;
        }
        Ok(lines)
    }

    fn end_of_line(&mut self, word: &str) -> Found<()> {
        if self.take(Kind::Mark(";")) {
            return Ok(());
        }
        let wrong = self.wrong("`;`");
        Err(match (word, self.peek()) {
            ("act", Kind::Mark("(")) => {
                wrong.help("the sorts of an action stand behind a colon: `act a: D;`".to_string())
            }
            ("act", Kind::Name(next)) => match self.last().kind {
                Kind::Name(name) => wrong.help(format!(
                    "one action is `act {name}_{next};`, two are `act {name}; act {next};`"
                )),
                _ => wrong,
            },
            ("act", Kind::Mark(",")) if self.read_before(2).kind == Kind::Word("act") => {
                wrong.help("each action has a line of its own: `act a; act b;`".to_string())
            }
            ("act", Kind::Mark(",")) => wrong.help(TWO_SORTS.to_string()),
            ("func", Kind::Numeral(_)) => {
                wrong.help("a comma stands between two values".to_string())
            }
            ("init", Kind::Mark("+" | "." | "<|")) => wrong.help(
                "`init` calls one process: give this a process of its own, `proc Start = ..;`"
                    .to_string(),
            ),
            ("proc", _) => self.behind_part("`.`, `+`, `<|` or `;`"),
            _ => wrong,
        })
    }

    fn sort_line(&mut self) -> Found<Sort<'s>> {
        let name = self.name("the name of a sort")?;
        let example = || Some(format!("`sort {} 4;` has the values 0 to 3", name.text));
        let size = self.numeral("the size of the sort");
        let size = size.map_err(|wrong| wrong.help(example()))?;
        Ok(Sort { name, size })
    }

    fn function_line(&mut self) -> Found<Function<'s>> {
        let name = self.name("the name of a function")?;
        let example = || {
            Some(format!(
                "`func {}: D -> E = ..;` lists a value for each value of D",
                name.text
            ))
        };
        self.mark(":").map_err(|wrong| wrong.help(example()))?;
        let arguments = self.sorts("a function")?;
        let comma = self.peek() == Kind::Mark(",");
        self.mark("->").map_err(|wrong| match comma {
            true => wrong.help(TWO_SORTS.to_string()),
            false => wrong.help(example()),
        })?;
        let result = self.name("the sort of the result")?;
        self.mark("=").map_err(|wrong| wrong.help(example()))?;
        let values = self.joined(",", |parser| parser.numeral("a value"))?;
        Ok(Function {
            name,
            arguments,
            result,
            values,
        })
    }

    fn action_line(&mut self) -> Found<Action<'s>> {
        let name = self.name("the name of an action")?;
        let arguments = match self.take(Kind::Mark(":")) {
            true => self.sorts("an action")?,
            false => Vec::new(),
        };
        Ok(Action { name, arguments })
    }

    /// `sort`, or `sort # sort`; `what` has them.
    fn sorts(&mut self, what: &str) -> Found<Vec<Name<'s>>> {
        let sorts = self.joined("#", |parser| parser.name("a sort"))?;
        match sorts.get(2) {
            Some(third) => {
                let message = format!("{what} of {} sorts", sorts.len());
                Err(Finding::new(5, third.span, message).label("two are the most"))
            }
            None => Ok(sorts),
        }
    }

    fn process_line(&mut self) -> Found<Process<'s>> {
        let name = self.name("the name of a process")?;
        let mut parameters = Vec::new();
        if self.take(Kind::Mark("(")) {
            if self.peek() == Kind::Mark(")") {
                return Err(self.empty_brackets());
            }
            parameters = self.joined(",", Parser::variable)?;
            self.mark(")")?;
        }
        self.mark("=")?;
        let body = self.choice()?;
        Ok(Process {
            name,
            parameters,
            body,
        })
    }

    /// `v: sort`.
    pub fn variable(&mut self) -> Found<Variable<'s>> {
        let name = self.name("the name of a variable")?;
        self.mark(":").map_err(|wrong| {
            wrong.help(format!(
                "each variable has its sort behind it: `{}: D`",
                name.text
            ))
        })?;
        let sort = self.name("a sort")?;
        Ok(Variable { name, sort })
    }
}
