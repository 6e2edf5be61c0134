//! The one error: a refusal, with the first question that fails.

use std::fmt;

use crate::Question;

/// A refusal by the library: the first question that fails. Nothing was changed then.
///
/// ```
/// use wizbratel::{check, Question};
/// let refused = check(b"act a; proc X = b; init X;").unwrap_err();
/// assert_eq!((refused.number(), refused.question()), (7, Question::Name));
/// assert!(refused.to_string().starts_with("refused by question 7: every declared name new"));
/// assert!(format!("{refused:?}").starts_with("Refused(7: every declared name new"));
/// ```
#[derive(Clone, Copy, PartialEq, Eq, Hash, PartialOrd, Ord)]
pub struct Refused(Question);

impl Refused {
    /// The question's number, 1 to 17.
    #[must_use]
    pub fn number(self) -> u8 {
        self.0.number()
    }

    /// The question, which was answered no.
    #[must_use]
    pub fn question(self) -> Question {
        self.0
    }

    /// What the library's number says: 0 is yes to all questions.
    pub(crate) fn unless_zero(number: u8) -> Result<(), Refused> {
        if number == 0 {
            return Ok(());
        }
        let question = Question::try_from(number).expect("the library's questions are 1 to 17");
        Err(Refused(question))
    }
}

impl fmt::Display for Refused {
    fn fmt(&self, f: &mut fmt::Formatter<'_>) -> fmt::Result {
        write!(f, "refused by question {}: {}", self.number(), self.0)
    }
}

/// With the question's words, since `unwrap` and a `main` that ends with this show nothing else.
impl fmt::Debug for Refused {
    fn fmt(&self, f: &mut fmt::Formatter<'_>) -> fmt::Result {
        write!(f, "Refused({}: {})", self.number(), self.0)
    }
}

impl std::error::Error for Refused {}
