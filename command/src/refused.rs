//! What was refused. Whatever the command says of a sheet that is refused by 1 to 10, it says through `Refusal`.

use wizbratel::{Diagnostic, Refused};

use crate::refusal;

/// What was refused, by which question, and the bytes of a sheet.
#[derive(Debug)]
pub struct Refusal {
    name: String,
    refused: Refused,
    sheet: Option<Box<[u8]>>,
}

impl Refusal {
    /// A sheet that was refused by 1 to 10, under this name in messages.
    pub fn of_sheet(name: impl Into<String>, sheet: &[u8], refused: Refused) -> Self {
        let sheet = Some(sheet.into());
        let name = name.into();
        Refusal {
            name,
            refused,
            sheet,
        }
    }

    /// A table file or a stack.
    pub fn of(name: impl Into<String>, refused: Refused) -> Self {
        let (name, sheet) = (name.into(), None);
        Refusal {
            name,
            refused,
            sheet,
        }
    }

    /// The refusal itself.
    pub fn refused(&self) -> Refused {
        self.refused
    }

    /// What is said on standard error.
    pub fn said(&self) -> String {
        refusal::said(&self.name, self.refused, self.sheet.as_deref())
    }

    /// Where and why, in a line.
    pub fn line(&self) -> String {
        refusal::in_a_line(self.refused, self.sheet.as_deref())
    }

    /// The same in lines, with the sheet's own.
    pub fn lines(&self) -> String {
        match self.sheet.as_deref().and_then(Diagnostic::of) {
            Some(found) => format!("{found}\n"),
            None => format!("{}\n", self.refused),
        }
    }
}
