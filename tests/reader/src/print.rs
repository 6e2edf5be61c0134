//! A table printed as a sheet (question 17): sorts and actions by their names, all else by letter and
//! index, with the fewest blanks and brackets.

use crate::check::check_written;
use crate::file::read_table;
use crate::layout::run_of;
use crate::limits::SHEET_BYTES;
use crate::question::{self, put, Refusal};
use crate::signature::{Signature, BOOL};
use crate::table::{Call, Condition, Equation, Summand, Table};

/// The sheet of a table file, written to an output that is always long enough.
pub fn print_table(file: &[u8]) -> Result<String, Refusal> {
    print_table_within(file, SHEET_BYTES)
}

/// The sheet of a table file, written to a lent output of this many bytes.
pub fn print_table_within(file: &[u8], lent: usize) -> Result<String, Refusal> {
    let text = printed(&read_table(file)?);
    put(question::PRINTED, check_written(text.as_bytes()).is_ok())?;
    put(question::OUTPUT, text.len() <= lent)?;
    Ok(text)
}

/// The text of a table, whether or not it is a sheet.
pub fn printed(table: &Table) -> String {
    let signature = &table.signature;
    let sorts = signature.sorts.iter().map(|sort| &sort.name[..]);
    let actions = signature.actions.iter().map(|action| &action.name[..]);
    let taken: Vec<&str> = sorts.chain(actions).collect();
    let run = |letter| run_of(letter, &taken);
    let mut printer = Printer {
        signature,
        functions: run("f"),
        processes: run("p"),
        variables: run("v"),
        text: Text::default(),
    };
    printer.sheet(table);
    printer.text.whole
}

/// A text that grows by tokens.
#[derive(Default)]
struct Text {
    whole: String,
    /// Where its last token begins.
    last: usize,
}

impl Text {
    /// A blank stands before the token only where it would merge with the one before it.
    fn token(&mut self, token: &str) {
        if merge(&self.whole[self.last..], token) {
            self.whole.push(' ');
        }
        self.last = self.whole.len();
        self.whole += token;
    }
}

/// A name goes on through letters, digits and underscores, a numeral through digits; of the marks
/// only `=` can become a longer one.
fn merge(token: &str, next: &str) -> bool {
    let [first, next] = [token, next].map(|text| text.bytes().next().unwrap_or(b' '));
    match first {
        b'a'..=b'z' | b'A'..=b'Z' => next.is_ascii_alphanumeric() || next == b'_',
        b'0'..=b'9' => next.is_ascii_digit(),
        _ => token == "=" && next == b'=',
    }
}

/// What stands before the index of a function, a process and a variable, which no sort's and no
/// action's name begins with; and the text so far.
pub(crate) struct Printer<'t> {
    signature: &'t Signature,
    functions: String,
    processes: String,
    variables: String,
    text: Text,
}

impl Printer<'_> {
    pub(crate) fn tokens(&mut self, tokens: &[&str]) {
        tokens.iter().for_each(|token| self.text.token(token));
    }

    fn sort(&mut self, index: usize) {
        self.tokens(&[&self.signature.sorts[index].name]);
    }

    pub(crate) fn function(&mut self, index: usize) {
        self.tokens(&[&format!("{}{index}", self.functions)]);
    }

    fn process(&mut self, index: usize) {
        self.tokens(&[&format!("{}{index}", self.processes)]);
    }

    pub(crate) fn variable_name(&mut self, index: usize) {
        self.tokens(&[&format!("{}{index}", self.variables)]);
    }

    /// A variable where it is declared.
    fn variable(&mut self, index: usize, sort: usize) {
        self.variable_name(index);
        self.tokens(&[":"]);
        self.sort(sort);
    }

    pub(crate) fn joined<T>(
        &mut self,
        items: &[T],
        joint: &str,
        print: impl Fn(&mut Self, usize, &T),
    ) {
        for (index, item) in items.iter().enumerate() {
            if index > 0 {
                self.tokens(&[joint]);
            }
            print(self, index, item);
        }
    }

    /// A list in brackets; without items there are no brackets either.
    pub(crate) fn bracketed<T>(&mut self, items: &[T], print: impl Fn(&mut Self, usize, &T)) {
        if !items.is_empty() {
            self.tokens(&["("]);
            self.joined(items, ",", print);
            self.tokens(&[")"]);
        }
    }

    fn sheet(&mut self, table: &Table) {
        self.declarations();
        for (index, equation) in table.equations.iter().enumerate() {
            self.equation(index, equation);
        }
        self.tokens(&["init"]);
        self.process(table.start);
        self.bracketed(&table.start_values, |to, _, value| {
            to.tokens(&[&value.to_string()])
        });
        self.tokens(&[";"]);
    }

    fn declarations(&mut self) {
        let signature = self.signature;
        for sort in &signature.sorts[BOOL + 1..] {
            self.tokens(&["sort", &sort.name, &sort.size.to_string(), ";"]);
        }
        for (index, function) in signature.functions.iter().enumerate() {
            self.tokens(&["func"]);
            self.function(index);
            self.tokens(&[":"]);
            self.joined(&function.arguments, "#", |to, _, &sort| to.sort(sort));
            self.tokens(&["->"]);
            self.sort(function.result);
            self.tokens(&["="]);
            self.joined(&function.values, ",", |to, _, value| {
                to.tokens(&[&value.to_string()])
            });
            self.tokens(&[";"]);
        }
        for action in &signature.actions {
            self.tokens(&["act", &action.name]);
            if !action.arguments.is_empty() {
                self.tokens(&[":"]);
            }
            self.joined(&action.arguments, "#", |to, _, &sort| to.sort(sort));
            self.tokens(&[";"]);
        }
    }

    /// An equation without summands has the right side delta.
    fn equation(&mut self, index: usize, equation: &Equation) {
        let parameters = &equation.parameters;
        self.tokens(&["proc"]);
        self.process(index);
        self.bracketed(parameters, |to, index, &sort| to.variable(index, sort));
        self.tokens(&["="]);
        if equation.summands.is_empty() {
            self.tokens(&["delta"]);
        }
        self.joined(&equation.summands, "+", |to, _, summand| {
            to.summand(parameters.len(), summand)
        });
        self.tokens(&[";"]);
    }

    /// Sums come outermost, in order; parameters are numbered before their variables.
    fn summand(&mut self, parameters: usize, summand: &Summand) {
        for (index, &sort) in summand.variables.iter().enumerate() {
            self.tokens(&["sum", "("]);
            self.variable(parameters + index, sort);
            self.tokens(&[","]);
        }
        self.tests(&summand.conditions, summand);
        summand.variables.iter().for_each(|_| self.tokens(&[")"]));
    }

    /// Conditions in order, the first outermost; a wanted 0 has delta in the yes part.
    fn tests(&mut self, conditions: &[Condition], summand: &Summand) {
        let Some((test, inner)) = conditions.split_first() else {
            return self.sequence(summand);
        };
        if test.wanted == 0 {
            self.tokens(&["delta"]);
        } else {
            self.part(inner, summand);
        }
        self.tokens(&["<|"]);
        self.data(&test.data);
        self.tokens(&["|>"]);
        if test.wanted == 0 {
            self.part(inner, summand);
        } else {
            self.tokens(&["delta"]);
        }
    }

    /// A part of a conditional is a sequence: another conditional there needs brackets.
    fn part(&mut self, conditions: &[Condition], summand: &Summand) {
        if conditions.is_empty() {
            return self.sequence(summand);
        }
        self.tokens(&["("]);
        self.tests(conditions, summand);
        self.tokens(&[")"]);
    }

    fn sequence(&mut self, summand: &Summand) {
        match summand.action {
            Some(action) => self.tokens(&[&self.signature.actions[action].name]),
            None => self.tokens(&["tau"]),
        }
        self.arguments(&summand.arguments);
        for Call {
            equation,
            arguments,
        } in &summand.calls
        {
            self.tokens(&["."]);
            self.process(*equation);
            self.arguments(arguments);
        }
    }
}
