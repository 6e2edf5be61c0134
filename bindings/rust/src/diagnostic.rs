//! Where a sheet is wrong, and why. The library decides whether a sheet is refused and by which question, and says no
//! more. A reader of places goes through the same questions, over tokens that know where they stand; what it finds is
//! told only where it comes to the library's number.

mod bytes;
mod circles;
mod counts;
mod equations;
mod finding;
mod form;
mod form_data;
mod form_lines;
mod form_order;
mod form_process;
mod heads;
mod known;
mod names;
mod nearest;
mod sheet_names;
mod shown;
mod sorts;
mod sums;
mod tokens;
mod tree;

use std::fmt;
use std::ops::Range;

use crate::check;
use equations::Equations;
use finding::{Finding, Found};
use known::Known;
pub use sheet_names::{EquationNames, SheetNames};
use shown::{Mark, Place, Shown};

/// Where and why a sheet is refused by one of questions 1 to 10.
///
/// ```
/// use wizbratel::Diagnostic;
///
/// let sheet = b"act plug;\nproc Idle = plug.Charging;\nproc Chargin = plug;\ninit Idle;\n";
/// let wrong = Diagnostic::of(sheet).expect("it is refused");
/// assert_eq!((wrong.question(), wrong.line(), wrong.column()), (7, 2, 18));
/// assert_eq!(&sheet[wrong.span()], b"Charging");
/// assert_eq!(wrong.message(), "no action or process is named `Charging`");
/// assert_eq!(wrong.help(), Some("did you mean `Chargin`?"));
/// assert_eq!(
///     wrong.to_string(),
///     "\
/// refused by question 7: no action or process is named `Charging`
///  --> line 2, column 18
///   |
/// 2 | proc Idle = plug.Charging;
///   |                  ^^^^^^^^ not declared
///   |
///   = help: did you mean `Chargin`?"
/// );
/// ```
#[derive(Clone, Debug, PartialEq, Eq)]
pub struct Diagnostic {
    finding: Finding,
    marks: Vec<Mark>,
    end: Place,
}

impl Diagnostic {
    /// What is wrong with a sheet; nothing if the library accepts it. Nothing too where the place is not found, that is
    /// where the reader of places comes to another number than the library: no such sheet is known.
    ///
    /// ```
    /// use wizbratel::Diagnostic;
    /// assert_eq!(Diagnostic::of(b"act a; proc X = a.X; init X;"), None);
    /// ```
    pub fn of(sheet: &[u8]) -> Option<Diagnostic> {
        let refused = check(sheet).err()?;
        let found = Diagnostic::by_places_alone(sheet)?;
        (found.question() == refused.number()).then_some(found)
    }

    /// What the reader of places finds, whatever the library says. For tests that hold the two together.
    #[doc(hidden)]
    pub fn by_places_alone(sheet: &[u8]) -> Option<Diagnostic> {
        let finding = *questions(sheet).err()?;
        Some(Diagnostic {
            marks: shown::marks(sheet, &finding),
            end: Place::of(sheet, finding.span.end),
            finding,
        })
    }

    /// The number of the question, 1 to 10.
    pub fn question(&self) -> u8 {
        self.finding.question
    }

    /// The line, from 1.
    pub fn line(&self) -> usize {
        self.marks[0].place.line
    }

    /// The column in its line, from 1, in bytes: all that stands before it in the line is ASCII.
    pub fn column(&self) -> usize {
        self.marks[0].place.column
    }

    /// Line and column behind the end of the place.
    pub fn end(&self) -> (usize, usize) {
        (self.end.line, self.end.column)
    }

    /// The place as bytes of the sheet; it is empty where something is missing.
    pub fn span(&self) -> Range<usize> {
        self.finding.span.start..self.finding.span.end
    }

    /// What is wrong, in a line.
    pub fn message(&self) -> &str {
        &self.finding.message
    }

    /// How it may be mended, where something can be said.
    pub fn help(&self) -> Option<&str> {
        self.finding.help.as_deref()
    }

    /// What is said at the place and at others that belong to it: line, column, words.
    pub fn notes(&self) -> impl Iterator<Item = (usize, usize, &str)> {
        let marks = self.marks.iter().filter(|mark| !mark.label.is_empty());
        marks.map(|mark| (mark.place.line, mark.place.column, &mark.label[..]))
    }

    /// The same text as it is displayed, with the name of the sheet's file, and in colours or not.
    pub fn shown<'d>(&'d self, name: &'d str, color: bool) -> impl fmt::Display + 'd {
        Shown {
            finding: &self.finding,
            marks: &self.marks,
            name: Some(name),
            color,
        }
    }
}

impl fmt::Display for Diagnostic {
    fn fmt(&self, f: &mut fmt::Formatter<'_>) -> fmt::Result {
        let shown = Shown {
            finding: &self.finding,
            marks: &self.marks,
            name: None,
            color: false,
        };
        shown.fmt(f)
    }
}

impl std::error::Error for Diagnostic {}

/// Questions 1 to 10, in order.
fn questions(sheet: &[u8]) -> Found<()> {
    read(sheet, |_, equations| heads::check(equations))?
}

/// Questions 1 to 9, in order, and what is then found in the text and its equations.
fn read<T>(sheet: &[u8], then: impl FnOnce(&str, &Equations) -> T) -> Found<T> {
    let text = bytes::text(sheet)?;
    let tokens = tokens::tokens(text)?;
    tokens::check_brackets(&tokens)?;
    let sheet = form_lines::sheet(&tokens)?;
    counts::check(&sheet)?;
    let known = Known::of(&sheet)?;
    names::check(&known)?;
    sorts::check(&known)?;
    circles::check(&known)?;
    Ok(then(text, &Equations::of(&known)))
}
