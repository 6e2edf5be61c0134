//! Tokens by longest match (question 3) and the count of open brackets (question 4).

use crate::limits::{NAME_LENGTH, OPEN_BRACKETS};
use crate::question::{self, Refusal};

const WORDS: [&str; 8] = ["sort", "func", "act", "proc", "init", "sum", "delta", "tau"];
/// A mark stands before those that begin it.
const MARKS: [&str; 16] = [
    "(", ")", ",", ";", ":", "#", "==", "=", "+", ".", "->", "<|", "|>", "!", "/\\", "\\/",
];

/// What a token is.
#[derive(Clone, Copy, Debug, PartialEq, Eq)]
pub enum Kind<'a> {
    /// A name that is none of the words.
    Name(&'a str),
    /// One of sort, func, act, proc, init, sum, delta and tau.
    Word(&'a str),
    /// A numeral of at most 255.
    Numeral(u8),
    /// One of the marks, such as `(` or `->`.
    Mark(&'static str),
}

/// A token and the place of its first character.
#[derive(Clone, Copy, Debug, PartialEq, Eq)]
pub struct Token<'a> {
    /// What the token is.
    pub kind: Kind<'a>,
    /// Bytes of the text before it.
    pub place: usize,
}

/// All tokens of a text; question 3 if some part of it is none.
pub fn tokens(text: &str) -> Result<Vec<Token<'_>>, Refusal> {
    let mut found = Vec::new();
    let mut place = 0;
    while place < text.len() {
        if matches!(text.as_bytes()[place], b' ' | b'\n') {
            place += 1;
            continue;
        }
        let (kind, length) = first_token(&text[place..]).ok_or(question::TOKENS)?;
        found.push(Token { kind, place });
        place += length;
    }
    Ok(found)
}

/// Question 4: a closing bracket with none open is not counted.
pub fn check_brackets(tokens: &[Token]) -> Result<(), Refusal> {
    let mut open = 0usize;
    for token in tokens {
        match token.kind {
            Kind::Mark("(") => open += 1,
            Kind::Mark(")") => open = open.saturating_sub(1),
            _ => {}
        }
        question::put(question::BRACKETS, open <= OPEN_BRACKETS)?;
    }
    Ok(())
}

/// Whether the whole text is a name by the token rule, and no word.
pub fn is_name(text: &str) -> bool {
    first_token(text) == Some((Kind::Name(text), text.len()))
}

fn first_token(text: &str) -> Option<(Kind<'_>, usize)> {
    match text.as_bytes().first()? {
        b'a'..=b'z' | b'A'..=b'Z' => {
            let run = run(text, |b| b.is_ascii_alphanumeric() || b == b'_');
            Some((name_or_word(run)?, run.len()))
        }
        b'0'..=b'9' => {
            let run = run(text, |b| b.is_ascii_digit());
            Some((Kind::Numeral(numeral(run)?), run.len()))
        }
        _ => {
            let mark = MARKS.into_iter().find(|mark| text.starts_with(mark))?;
            Some((Kind::Mark(mark), mark.len()))
        }
    }
}

fn run(text: &str, belongs: impl Fn(u8) -> bool) -> &str {
    let length = text.bytes().take_while(|&byte| belongs(byte)).count();
    &text[..length]
}

fn name_or_word(run: &str) -> Option<Kind<'_>> {
    if WORDS.contains(&run) {
        Some(Kind::Word(run))
    } else if run.len() <= NAME_LENGTH {
        Some(Kind::Name(run))
    } else {
        None
    }
}

/// The whole run must be the numeral: `00`, `01` and `256` are no tokens.
fn numeral(run: &str) -> Option<u8> {
    if run.len() > 1 && run.starts_with('0') {
        None
    } else {
        run.parse().ok()
    }
}
