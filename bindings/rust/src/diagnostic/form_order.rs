//! Question 5: what stands where a line should begin.

use super::finding::Finding;
use super::form::{shown, Parser, LINES};
use super::nearest::nearest;
use super::tokens::Kind;
use super::tree::Process;

const ORDER: &str = "the order of lines is sort, func, act, proc, init";

impl<'s> Parser<'_, 's> {
    /// No line `init`, or of another kind than may come here.
    pub fn no_line(&self, processes: &[Process]) -> Box<Finding> {
        let span = self.span();
        match self.peek() {
            Kind::End => self.no_init(processes),
            Kind::Word(word) if LINES.contains(&word) => self.out_of_order(word),
            Kind::Name(name) => self.no_word(name),
            Kind::Mark(";") => Finding::new(5, span, "a `;` too many").label("ends no line"),
            found => {
                let before = self.last().span;
                let message = format!("a line begins with {}", shown(found));
                let help = "lines begin with sort, func, act, proc or init".to_string();
                let after = !self.at_start();
                Finding::new(5, span, message)
                    .note(after.then_some(before), "the line before it ends here")
                    .help(help)
            }
        }
    }

    fn no_init(&self, processes: &[Process]) -> Box<Finding> {
        let Some((last, _)) = self.lines.last() else {
            let help = "the smallest sheet is `proc X = delta; init X;`".to_string();
            return Finding::new(5, self.span(), "the sheet is empty").help(help);
        };
        match processes.first() {
            Some(process) => {
                let help = format!("say where to begin: `init {};`", process.name.text);
                Finding::new(5, self.span(), "the sheet ends without a line `init`").help(help)
            }
            None => {
                let message = format!("the sheet ends behind its line `{last}`");
                Finding::new(5, self.span(), message)
                    .help("lines `proc` and `init` are missing".to_string())
            }
        }
    }

    fn out_of_order(&self, word: &str) -> Box<Finding> {
        let rank = |word: &str| LINES.iter().position(|line| *line == word);
        let later = self.lines.iter().find(|(line, _)| rank(line) > rank(word));
        let message = match later {
            Some((line, _)) => format!("a line `{word}` behind a line `{line}`"),
            None => format!("a line `{word}` stands here"),
        };
        let note = later.map(|(line, span)| (*span, format!("the first line `{line}`")));
        let (place, words) = note.unzip();
        Finding::new(5, self.span(), message)
            .note(place, words.unwrap_or_default())
            .help(ORDER.to_string())
    }

    /// A name where a line should begin: a word written wrongly, or one that is missing.
    fn no_word(&self, name: &str) -> Box<Finding> {
        let message = format!("`{name}` begins no line");
        let finding = Finding::new(5, self.span(), message);
        let lower = name.to_ascii_lowercase();
        let longer = LINES.into_iter().find(|word| lower.starts_with(word));
        let help = match (
            longer.or(nearest(name, LINES)),
            self.peek_at(1),
            self.lines.last(),
        ) {
            (Some(word), ..) => format!("did you mean `{word}`?"),
            (_, Kind::Mark("=" | "("), _) => {
                format!("each line has its word first: `proc {name} ..;`")
            }
            (_, Kind::Mark(";"), Some(("act", _))) => {
                format!("each line has its word first: `act {name};`")
            }
            _ => "lines begin with sort, func, act, proc or init".to_string(),
        };
        finding.help(help)
    }

    pub fn behind_init(&self) -> Box<Finding> {
        let found = self.peek();
        let finding = match found {
            Kind::Word("init") => Finding::new(5, self.span(), "a second line `init`")
                .help("a sheet begins in one place".to_string()),
            Kind::Word(word) if LINES.contains(&word) => {
                let message = format!("a line `{word}` behind the line `init`");
                Finding::new(5, self.span(), message).help(ORDER.to_string())
            }
            found => {
                let message = format!("{} stands behind the line `init`", shown(found));
                Finding::new(5, self.span(), message)
                    .help("the line `init` is the last".to_string())
            }
        };
        let init = self.lines.last().map(|(_, span)| *span);
        finding.note(init, "the line `init`")
    }
}
