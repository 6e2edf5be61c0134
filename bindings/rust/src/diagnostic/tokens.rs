//! Questions 3 and 4: tokens with their places, and the brackets that are open.

use super::finding::{Finding, Found, Span};

/// The words that are never names.
pub const WORDS: [&str; 8] = ["sort", "func", "act", "proc", "init", "sum", "delta", "tau"];
/// A mark stands before those that begin it.
const MARKS: [&str; 16] = [
    "(", ")", ",", ";", ":", "#", "==", "=", "+", ".", "->", "<|", "|>", "!", "/\\", "\\/",
];

const NAME_LENGTH: usize = 16;
const OPEN_BRACKETS: usize = 16;

#[derive(Clone, Copy, Debug, PartialEq, Eq)]
pub enum Kind<'s> {
    Name(&'s str),
    Word(&'s str),
    Numeral(u8),
    Mark(&'static str),
    /// Behind the last token.
    End,
}

#[derive(Clone, Copy, Debug)]
pub struct Token<'s> {
    pub kind: Kind<'s>,
    pub span: Span,
}

/// All tokens of a text, and the end behind them.
pub fn tokens(text: &str) -> Found<Vec<Token<'_>>> {
    let mut tokens: Vec<Token> = Vec::new();
    let mut place = 0;
    while let Some(byte) = text.as_bytes().get(place) {
        if matches!(byte, b' ' | b'\n') {
            place += 1;
            continue;
        }
        let (kind, length) = first(&text[place..]).map_err(|wrong| wrong.finding(text, place))?;
        let span = Span::new(place, place + length);
        tokens.push(Token { kind, span });
        place = span.end;
    }
    // the end stands right behind the last token, where somebody would go on writing
    let end = tokens
        .last()
        .map_or(Span::new(0, 0), |token| token.span.behind());
    tokens.push(Token {
        kind: Kind::End,
        span: end,
    });
    Ok(tokens)
}

/// Question 4.
pub fn check_brackets(tokens: &[Token]) -> Found<()> {
    let mut open = Vec::new();
    for token in tokens {
        match token.kind {
            Kind::Mark("(") => open.push(token.span),
            Kind::Mark(")") => drop(open.pop()),
            _ => {}
        }
        if open.len() > OPEN_BRACKETS {
            let help = "take away brackets that hold a sequence alone, give the inner part a process of its own, or \
                        look for a `)` that is missing";
            let message = "more than 16 round brackets are open";
            return Err(Finding::new(4, token.span, message)
                .label("the 17th")
                .note(open[0], "the first that is open")
                .help(help.to_string()));
        }
    }
    Ok(())
}

/// Why some text is no token.
enum Wrong<'s> {
    LongName(&'s str),
    Numeral(&'s str),
    Mark,
}

/// The first token of a text that begins with one, and its length.
fn first(text: &str) -> Result<(Kind<'_>, usize), Wrong<'_>> {
    let run = |belongs: fn(&u8) -> bool| {
        let length = text.bytes().take_while(belongs).count();
        &text[..length]
    };
    match text.as_bytes()[0] {
        b'a'..=b'z' | b'A'..=b'Z' => {
            let run = run(in_name);
            match run.len() {
                _ if WORDS.contains(&run) => Ok((Kind::Word(run), run.len())),
                ..=NAME_LENGTH => Ok((Kind::Name(run), run.len())),
                _ => Err(Wrong::LongName(run)),
            }
        }
        b'0'..=b'9' => {
            let run = run(u8::is_ascii_digit);
            match run.parse() {
                Ok(value) if run == "0" || !run.starts_with('0') => {
                    Ok((Kind::Numeral(value), run.len()))
                }
                _ => Err(Wrong::Numeral(run)),
            }
        }
        _ => match MARKS.into_iter().find(|mark| text.starts_with(mark)) {
            Some(mark) => Ok((Kind::Mark(mark), mark.len())),
            None => Err(Wrong::Mark),
        },
    }
}

fn in_name(byte: &u8) -> bool {
    byte.is_ascii_alphanumeric() || *byte == b'_'
}

impl Wrong<'_> {
    fn finding(self, text: &str, place: usize) -> Box<Finding> {
        let at = |length| Span::new(place, place + length);
        match self {
            Wrong::LongName(name) => {
                let length = name.len();
                let message = format!("the name `{}` is too long", cut(name));
                let label = format!("{length} characters; a name has at most 16");
                Finding::new(3, at(length), message).label(label)
            }
            Wrong::Numeral(digits) => {
                let message = format!("`{}` is no numeral", cut(digits));
                let value = digits.trim_start_matches('0');
                let finding = Finding::new(3, at(digits.len()), message);
                match value.len() == digits.len() {
                    true => finding.label("more than 255"),
                    false => finding
                        .label("begins with 0")
                        .help((value.len() <= 2).then(|| {
                            format!("write `{}`", if value.is_empty() { "0" } else { value })
                        })),
                }
            }
            Wrong::Mark => wrong_mark(text, place),
        }
    }
}

/// The beginning of a run that may be very long.
fn cut(run: &str) -> String {
    match run.get(..24) {
        Some(front) if run.len() > 24 => format!("{front}.."),
        _ => run.to_string(),
    }
}

/// A character that begins no token.
fn wrong_mark(text: &str, place: usize) -> Box<Finding> {
    let (front, rest) = text.split_at(place);
    let length = match rest.get(..2) {
        Some("--" | "//" | "/*" | "&&" | "||" | "<>" | "<=" | ">=") => 2,
        _ => 1,
    };
    let found = &rest[..length];
    let message = match found {
        "_" => "`_` begins no name".to_string(),
        _ => format!("`{found}` is no mark of the language"),
    };
    let help = mark_at(front, rest).or(mark_alone(found));
    let span = Span::new(place, place + length);
    Finding::new(3, span, message).help(help)
}

/// What to write for a mark, by what stands around it.
fn mark_at(front: &str, rest: &str) -> Option<String> {
    let (mark, behind) = rest.split_at(1);
    let next = behind.trim_start().bytes().next();
    let help = match (mark, next) {
        ("-", Some(b'>')) => "write `->` without a blank in it",
        ("/", Some(b'\\')) => "write `/\\` without a blank in it",
        ("-", _) if front.ends_with(in_name_char) && behind.starts_with(in_name_char) => {
            return joined(front, behind);
        }
        (">", _) if front.ends_with('=') => "did you mean `->`?",
        (">", _) if front.ends_with("<|") => "a condition stands between `<|` and `|>`",
        _ => return None,
    };
    Some(help.to_string())
}

/// What to write for a mark that other languages have.
fn mark_alone(found: &str) -> Option<String> {
    let help = match found {
        "-" => "the only mark with it is `->`; there is no arithmetic, a function lists its values",
        "_" => "a name begins with a letter; behind it there may be underscores",
        "%" | "--" | "//" | "/*" => "a sheet has no comments",
        "&" | "&&" => "did you mean `/\\` (and)?",
        "||" => "did you mean `\\/` (or)? Processes do not run beside each other in a sheet",
        "|" => "did you mean `\\/` (or)? A conditional is `p <| c |> q`, a choice is `p + q`",
        "~" => "did you mean `!` (not)?",
        "[" | "]" | "{" | "}" => "all brackets are round: `(` and `)`",
        "<" | ">" | "<=" | ">=" => {
            "a conditional is `p <| c |> q`; to compare by size, list a function: `func less: D # D -> Bool = ..;`"
        }
        "<>" => "a conditional is `p <| c |> q`",
        "*" | "^" | "/" | "\\" => "there is no arithmetic: a function lists its values",
        "\"" | "'" | "`" => "names stand without quotes",
        _ => return None,
    };
    Some(help.to_string())
}

fn in_name_char(letter: char) -> bool {
    letter.is_ascii() && in_name(&(letter as u8))
}

/// What to write for a name with a minus in it.
fn joined(front: &str, behind: &str) -> Option<String> {
    let first = front.trim_end_matches(in_name_char).len();
    let rest = behind.trim_start_matches(in_name_char).len();
    let name = format!("{}_{}", &front[first..], &behind[..behind.len() - rest]);
    let is_name = name.starts_with(|letter: char| letter.is_ascii_alphabetic());
    is_name.then(|| format!("a name has letters, digits and underscores: `{name}`"))
}
