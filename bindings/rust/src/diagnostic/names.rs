//! Question 7: every name is of the kind that its place needs, and every variable is new.

use super::finding::{Finding, Found, Span};
use super::known::{Declared, Known};
use super::nearest::did_you_mean;
use super::tree::{Call, Data, DataKind, Name, Variable, Walk};

pub fn check(known: &Known) -> Found<()> {
    let sheet = known.sheet;
    let mut names = Names {
        known,
        scope: Vec::new(),
        left: Vec::new(),
    };
    for function in &sheet.functions {
        names.sorts(&function.arguments)?;
        names.sort(function.result)?;
    }
    for action in &sheet.actions {
        names.sorts(&action.arguments)?;
    }
    for process in &sheet.processes {
        names.left.clear();
        names.process(process)?;
    }
    names.init(sheet.init.name)?;
    names.all_data(&sheet.init.arguments)
}

/// The variables in scope.
struct Names<'k, 't, 's> {
    known: &'k Known<'t, 's>,
    scope: Vec<Name<'s>>,
    /// Variables of this process that are in scope no more.
    left: Vec<Name<'s>>,
}

impl<'s> Walk<'s> for Names<'_, '_, 's> {
    /// A part: an action or a process, and its data.
    fn named(&mut self, call: &Call<'s>) -> Found<()> {
        let name = call.name;
        match self.known.get(name.text) {
            Some(Declared::Action(_) | Declared::Process(_)) => self.all_data(&call.arguments),
            Some(other) => Err(self.other(name, "an action or a process", other)),
            None => Err(match self.introduced(name.text) {
                Some(variable) => self.is_variable(name, variable, "an action or a process"),
                None => self.undeclared(name),
            }),
        }
    }

    fn condition(&mut self, test: &Data<'s>) -> Found<()> {
        self.data(test)
    }

    /// Puts a variable into scope that is unlike all declared names and all variables in scope.
    fn open(&mut self, variable: &Variable<'s>) -> Found<()> {
        let name = variable.name;
        let text = name.text;
        let help = "take another name for the variable".to_string();
        if let Some(taken) = self.known.get(text) {
            let message = format!("the variable `{text}` has the name of {}", taken.kind());
            return Err(Finding::new(7, name.span, message)
                .note(self.known.span(taken), "declared here")
                .help(help));
        }
        if let Some(outer) = self.introduced(text) {
            let message = format!("the variable `{text}` is in scope already");
            return Err(Finding::new(7, name.span, message)
                .label("introduced again")
                .note(outer, "introduced first")
                .help(help));
        }
        self.sort(variable.sort)?;
        self.scope.push(name);
        Ok(())
    }

    fn close(&mut self) {
        self.left.extend(self.scope.pop());
    }
}

impl<'s> Names<'_, '_, 's> {
    /// A name that is not what is wanted, with what it is.
    fn other(&self, name: Name, wanted: &str, declared: Declared) -> Box<Finding> {
        let kind = declared.kind();
        let message = format!("`{}` is {kind}, and {wanted} is wanted here", name.text);
        let finding = Finding::new(7, name.span, message);
        finding.note(self.known.span(declared), "declared here")
    }

    /// A name that is declared nowhere, with those that were meant perhaps.
    fn unknown(&self, name: Name, what: &str, meant: &[&str]) -> Box<Finding> {
        let message = format!("no {what} is named `{}`", name.text);
        Finding::new(7, name.span, message)
            .label("not declared")
            .help(did_you_mean(name.text, meant.iter().copied()))
    }

    fn sorts(&self, names: &[Name]) -> Found<()> {
        names.iter().try_for_each(|name| self.sort(*name))
    }

    fn sort(&self, name: Name) -> Found<()> {
        match self.known.get(name.text) {
            Some(Declared::Sort(_)) => Ok(()),
            Some(other) => Err(self.other(name, "a sort", other)),
            None => {
                let sorts = self.known.names(|is| matches!(is, Declared::Sort(_)));
                let finding = self.unknown(name, "sort", &sorts);
                Err(match finding.help {
                    Some(_) => finding,
                    None => finding.help(format!(
                        "declare it: `sort {} 4;` has the values 0 to 3",
                        name.text
                    )),
                })
            }
        }
    }

    fn init(&self, name: Name) -> Found<()> {
        match self.known.get(name.text) {
            Some(Declared::Process(_)) => Ok(()),
            Some(other) => Err(self.other(name, "a process", other)),
            None => {
                let processes = self.known.names(|is| matches!(is, Declared::Process(_)));
                Err(self.unknown(name, "process", &processes))
            }
        }
    }

    fn undeclared(&self, name: Name) -> Box<Finding> {
        let mut meant = self
            .known
            .names(|is| matches!(is, Declared::Action(_) | Declared::Process(_)));
        meant.extend(["delta", "tau"]);
        let finding = self.unknown(name, "action or process", &meant);
        let known = finding.help.is_some();
        let upper = name
            .text
            .starts_with(|letter: char| letter.is_ascii_uppercase());
        match (known, upper) {
            (true, _) => finding,
            (false, false) => finding.help(format!("declare it: `act {};`", name.text)),
            (false, true) => finding.help(format!("declare it: `proc {} = ..;`", name.text)),
        }
    }

    /// Where a variable in scope is introduced.
    fn introduced(&self, text: &str) -> Option<Span> {
        let variable = self.scope.iter().find(|variable| variable.text == text);
        variable.map(|variable| variable.span)
    }

    fn is_variable(&self, name: Name, introduced: Span, wanted: &str) -> Box<Finding> {
        let message = format!("`{}` is a variable, and {wanted} is wanted here", name.text);
        Finding::new(7, name.span, message).note(introduced, "introduced here")
    }

    fn all_data(&self, data: &[Data]) -> Found<()> {
        data.iter().try_for_each(|each| self.data(each))
    }

    fn data(&self, data: &Data) -> Found<()> {
        match &data.kind {
            DataKind::Variable(name) => self.variable(*name)?,
            DataKind::Apply(call) => self.function(call.name)?,
            _ => {}
        }
        self.all_data(data.parts())
    }

    fn function(&self, name: Name) -> Found<()> {
        match self.known.get(name.text) {
            Some(Declared::Function(_)) => Ok(()),
            Some(other) => Err(self.other(name, "a function", other)),
            None => Err(match self.introduced(name.text) {
                Some(variable) => self.is_variable(name, variable, "a function"),
                None => self.no_function(name),
            }),
        }
    }

    fn no_function(&self, name: Name) -> Box<Finding> {
        let functions = self.known.names(|is| matches!(is, Declared::Function(_)));
        let finding = self.unknown(name, "function", &functions);
        let help = match (&finding.help, name.text) {
            (Some(_), _) => return finding,
            (None, "not") => "not is the operator `!`".to_string(),
            (None, "and") => "and is the operator `/\\`".to_string(),
            (None, "or") => "or is the operator `\\/`".to_string(),
            (None, text) => format!("declare it: `func {text}: D -> E = ..;` lists its values"),
        };
        finding.help(help)
    }

    fn variable(&self, name: Name) -> Found<()> {
        if self.introduced(name.text).is_some() {
            return Ok(());
        }
        if let Some(other) = self.known.get(name.text) {
            let finding = self.other(name, "a variable or a numeral", other);
            return Err(match other {
                Declared::Function(_) => finding.help(format!(
                    "a function has its data in brackets: `{}(..)`",
                    name.text
                )),
                _ => finding,
            });
        }
        let text = name.text;
        let message = format!("no variable `{text}` is in scope here");
        let finding = Finding::new(7, name.span, message);
        let left = self.left.iter().find(|variable| variable.text == text);
        Err(match (left, text) {
            (Some(variable), _) => finding
                .note(variable.span, "in scope in the brackets of this sum alone")
                .help("put what needs it inside the brackets of the sum".to_string()),
            (None, "true" | "True" | "TRUE") => finding.help("true is written 1".to_string()),
            (None, "false" | "False" | "FALSE") => finding.help("false is written 0".to_string()),
            _ => finding.label("not in scope").help(did_you_mean(
                text,
                self.scope.iter().map(|variable| variable.text),
            )),
        })
    }
}
