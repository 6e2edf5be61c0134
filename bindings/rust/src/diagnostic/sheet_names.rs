//! The names that a sheet gives to what its table numbers, for those who show tables and stacks to people.

use super::equations::{Body, Equation, Equations};
use super::finding::Span;
use super::sums::sums;
use super::tokens::{tokens, Kind};
use crate::{check, Frame};

/// The longest part that is shown in place of its equation's number and values.
const LONGEST: usize = 40;

/// The names of an accepted sheet's functions, equations and variables, which its table does not keep.
///
/// ```
/// use wizbratel::{SheetNames, Table};
///
/// let sheet = b"sort D 2; act in: D; act out: D; proc Buf = sum(d: D, in(d).out(d).Buf); init Buf;";
/// let names = SheetNames::of(sheet).expect("it is accepted");
/// assert_eq!(names.equations()[0].process.as_deref(), Some("Buf"));
/// assert_eq!(names.equations()[0].sums, [["d"]]);
/// assert_eq!((&names.equations()[1].text[..], names.equations()[1].parameters.len()), ("out(d)", 1));
///
/// let mut stack = Table::make(sheet)?.into_start();
/// stack.take(1)?;
/// let frames: Vec<String> = stack.frames().iter().map(|frame| names.frame(frame)).collect();
/// assert_eq!(frames, ["Buf", "1:out(1)"]);
/// # Ok::<(), wizbratel::Refused>(())
/// ```
#[derive(Clone, Debug, PartialEq, Eq)]
pub struct SheetNames {
    functions: Vec<String>,
    equations: Vec<EquationNames>,
}

/// The names of an equation: of a process that is written, or of a part that has an equation of its own.
#[derive(Clone, Debug, PartialEq, Eq)]
#[non_exhaustive]
pub struct EquationNames {
    /// The process's name; none for a part.
    pub process: Option<String>,
    /// The process's name, or the part as it is written, a blank for every run of blanks and line feeds.
    pub text: String,
    /// The names of the parameters.
    pub parameters: Vec<String>,
    /// Of each summand the names of its sum variables; one that is there already has a `'` behind it.
    pub sums: Vec<Vec<String>>,
    pieces: Vec<Piece>,
}

/// A piece of a part's text.
#[derive(Clone, Debug, PartialEq, Eq)]
enum Piece {
    Text(String),
    /// A parameter, by its number.
    Parameter(usize),
}

impl SheetNames {
    /// The names of a sheet; none if the library refuses it.
    #[must_use]
    pub fn of(sheet: &[u8]) -> Option<SheetNames> {
        check(sheet).ok()?;
        super::read(sheet, SheetNames::new).ok()
    }

    fn new(text: &str, equations: &Equations) -> SheetNames {
        let functions = equations.known.sheet.functions.iter();
        let list = equations.list.iter();
        SheetNames {
            functions: functions.map(|line| line.name.text.to_string()).collect(),
            equations: list
                .map(|equation| EquationNames::new(text, equations, equation))
                .collect(),
        }
    }

    /// The names of the functions, in the order of the table.
    #[must_use]
    pub fn functions(&self) -> &[String] {
        &self.functions
    }

    /// The names of the equations, in the order of the table.
    #[must_use]
    pub fn equations(&self) -> &[EquationNames] {
        &self.equations
    }

    /// A frame of this sheet's table, with all its parameters: `Charging(0)`. That of a part is its equation's number
    /// and the part with the values put in, `2:out(1)`, or number and values, `2(1)`, where that would be long.
    #[must_use]
    pub fn frame(&self, frame: &Frame) -> String {
        let number = frame.equation.to_string();
        let Some(names) = self.equations.get(usize::from(frame.equation)) else {
            return number;
        };
        let values = frame.values.iter().take(names.parameters.len());
        let values: Vec<String> = values.map(u8::to_string).collect();
        let part = names.with(&values);
        match &names.process {
            Some(name) => applied(name, &values),
            None if part.len() <= LONGEST => format!("{number}:{part}"),
            None => applied(&number, &values),
        }
    }
}

/// A name with data behind it, where there are any.
fn applied(name: &str, data: &[String]) -> String {
    match data {
        [] => name.to_string(),
        _ => format!("{name}({})", data.join(",")),
    }
}

impl EquationNames {
    fn new(text: &str, equations: &Equations, equation: &Equation) -> Self {
        let names = equation.parameters.iter();
        let parameters: Vec<String> = names.map(|name| name.text.to_string()).collect();
        let (process, pieces) = match equation.body {
            Body::Process(process) => {
                let name = equations.known.sheet.processes[process].name.text;
                (Some(name.to_string()), vec![Piece::Text(name.to_string())])
            }
            Body::Part(part) => (None, pieces(text, part.span, &parameters)),
        };
        let mut names = EquationNames {
            process,
            text: String::new(),
            parameters,
            sums: sums(equations, equation),
            pieces,
        };
        names.text = names.with(&names.parameters);
        names
    }

    /// The text with these in place of the parameters.
    fn with(&self, data: &[String]) -> String {
        let pieces = self.pieces.iter().map(|piece| match piece {
            Piece::Text(text) => text,
            Piece::Parameter(number) => &data[*number],
        });
        pieces.map(String::as_str).collect()
    }
}

/// The text of a part in pieces. A variable's name is nothing else's within its scope.
fn pieces(text: &str, part: Span, parameters: &[String]) -> Vec<Piece> {
    let (mut pieces, mut last) = (Vec::new(), part.start);
    let tokens = tokens(text).unwrap_or_default();
    let inside = |span: Span| span.start >= part.start && span.end <= part.end;
    for token in tokens.iter().filter(|token| inside(token.span)) {
        if token.kind == Kind::End {
            continue;
        }
        if token.span.start > last {
            pieces.push(Piece::Text(" ".to_string()));
        }
        last = token.span.end;
        let written = &text[token.span.start..token.span.end];
        let number = parameters.iter().position(|name| name == written);
        pieces.push(match number {
            Some(number) => Piece::Parameter(number),
            None => Piece::Text(written.to_string()),
        });
    }
    pieces
}
