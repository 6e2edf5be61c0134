//! What the questions 1 to 17 ask. Each is put only if those before it were answered yes; 17 is put before 11.

use std::fmt;

/// The questions, each with its number and its words, which are what is said of it here.
macro_rules! questions {
    ($($name:ident = $number:literal: $words:literal;)*) => {
        /// A question that the library puts. Later versions may put more of them.
        ///
        /// ```
        /// use wizbratel::{check, Question};
        /// let refused = check(b"proc X = X; init X;").unwrap_err();
        /// assert_eq!(refused.question(), Question::Circle);
        /// assert_eq!(Question::try_from(9), Ok(Question::Circle));
        /// assert!(Question::Circle.words().starts_with("no process that comes back to itself"));
        /// assert!(Question::try_from(0).is_err() && Question::try_from(18).is_err());
        /// ```
        #[derive(Clone, Copy, Debug, PartialEq, Eq, Hash, PartialOrd, Ord)]
        #[repr(u8)]
        #[non_exhaustive]
        pub enum Question {
            $(#[doc = $words] $name = $number,)*
        }

        impl Question {
            /// All of them, by number.
            pub const ALL: &'static [Question] = &[$(Question::$name,)*];

            /// What it asks.
            #[must_use]
            pub fn words(self) -> &'static str {
                match self {
                    $(Question::$name => $words,)*
                }
            }
        }
    };
}

questions! {
    TooLong = 1: "at most 4,096 bytes in the sheet?";
    Byte = 2: "no bytes but printable ASCII, blanks and line feeds?";
    Token = 3: "all of the text tokens: names of at most 16 characters that begin with a letter, numerals up to 255 \
        without leading zeros, the marks ( ) , ; : # = + . -> <| |> ! == /\\ \\/?";
    Brackets = 4: "never more than 16 round brackets open?";
    Form = 5: "the form of a sheet: lines sort, func, act, proc and init in this order, each closed by a semicolon, \
        at least one proc, just one init?";
    Count = 6: "at most 8 sorts with Bool, sizes 1 to 16, 16 functions, 32 actions, 16 processes, 4 parameters a \
        process?";
    Name = 7: "every declared name new, each variable unlike all declared names and all variables in scope, each \
        used name of the kind that its place needs?";
    Sort = 8: "argument counts and sorts right, conditions Bool, the sides of == of one sort and not two numerals, \
        numerals below their sort's size, function values complete and in range?";
    Circle = 9: "no process that comes back to itself through first parts alone, without an action before it?";
    TableLimit = 10: "the table within its limits: 64 equations of 4 parameters, 255 summands, for each 4 sum \
        variables, 8 conditions and 8 calls, 31 nodes a data term, 64,768 bytes in all?";
    NoRoom = 11: "room for the whole table file, or the whole printed text, in the lent output?";
    FileLength = 12: "512 to 65,536 bytes in the table file, in whole blocks of 512?";
    Block = 13: "number, block count and check of each block right?";
    Stream = 14: "the stream of a table in the blocks, rightly sorted, within all limits, in the fewest blocks, zeros \
        behind it?";
    Frames = 15: "a stack of this table: 64 frames lent, each used one an equation with values in its sorts, zeros in \
        all that is not used?";
    TooDeep = 16: "at most 64 frames after the step?";
    Printed = 17: "the printed text a sheet by questions 1 to 8: at most 4,096 bytes, names of at most 16 characters, \
        at most 16 round brackets open, at most 16 equations, no sort with an action's name, no == over two values?";
}

impl Question {
    /// Its number, 1 to 17.
    #[must_use]
    pub fn number(self) -> u8 {
        self as u8
    }
}

impl fmt::Display for Question {
    /// What it asks.
    fn fmt(&self, f: &mut fmt::Formatter<'_>) -> fmt::Result {
        f.write_str(self.words())
    }
}

impl From<Question> for u8 {
    fn from(question: Question) -> u8 {
        question.number()
    }
}

impl TryFrom<u8> for Question {
    type Error = NoQuestion;

    fn try_from(number: u8) -> Result<Question, NoQuestion> {
        let index = usize::from(number).checked_sub(1);
        let question = index.and_then(|index| Question::ALL.get(index));
        question.copied().ok_or(NoQuestion(number))
    }
}

/// A number that no question has.
#[derive(Clone, Copy, Debug, PartialEq, Eq, Hash)]
pub struct NoQuestion(u8);

impl fmt::Display for NoQuestion {
    fn fmt(&self, f: &mut fmt::Formatter<'_>) -> fmt::Result {
        write!(f, "no question has the number {}", self.0)
    }
}

impl std::error::Error for NoQuestion {}

/// What a question asks, in words; there are questions 1 to 17.
///
/// ```
/// assert_eq!(wizbratel::question(1), Some("at most 4,096 bytes in the sheet?"));
/// assert_eq!(wizbratel::question(18), None);
/// ```
#[must_use]
pub fn question(number: u8) -> Option<&'static str> {
    Question::try_from(number).ok().map(Question::words)
}
