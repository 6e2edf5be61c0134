//! A finding in its sheet, in the manner of rustc: the words, the place, the lines with marks under them, the help.

use std::fmt;

use super::bytes::is_unseen;
use super::finding::{Finding, Span};

/// The longest piece of a line that is shown.
const WIDEST: usize = 100;

/// A place in a sheet: its line and column, both from 1.
#[derive(Clone, Copy, Debug, PartialEq, Eq)]
pub struct Place {
    pub line: usize,
    pub column: usize,
}

impl Place {
    /// The place of a byte.
    pub fn of(sheet: &[u8], byte: usize) -> Place {
        let front = &sheet[..byte.min(sheet.len())];
        let line_start = front
            .iter()
            .rposition(|byte| *byte == b'\n')
            .map_or(0, |feed| feed + 1);
        Place {
            line: 1 + front.iter().filter(|byte| **byte == b'\n').count(),
            column: 1 + front.len() - line_start,
        }
    }
}

/// A line of the sheet, or a piece of a long one, and a mark under it.
#[derive(Clone, Debug, PartialEq, Eq)]
pub struct Mark {
    pub place: Place,
    pub label: String,
    text: String,
    /// Blanks before the mark, and its width.
    before: usize,
    width: usize,
}

impl Mark {
    /// The mark under a span, in the piece of its line that is shown.
    fn of(sheet: &[u8], span: Span, label: &str, piece: Span) -> Mark {
        let start = span.start.clamp(piece.start, piece.end);
        let end = span.end.clamp(start, piece.end);
        let line = line_of(sheet, span.start);
        let dots = |cut: bool| if cut { ".." } else { "" };
        let front = letters(&sheet[piece.start..start]);
        let front = format!("{}{front}", dots(piece.start > line.start));
        let (marked, behind) = (letters(&sheet[start..end]), letters(&sheet[end..piece.end]));
        Mark {
            place: Place::of(sheet, span.start),
            label: label.to_string(),
            before: front.chars().count(),
            width: marked.chars().count().max(1),
            text: format!("{front}{marked}{behind}{}", dots(piece.end < line.end)),
        }
    }
}

/// The line in which a byte stands, without its line feed.
fn line_of(sheet: &[u8], byte: usize) -> Span {
    let (front, rest) = sheet.split_at(byte.min(sheet.len()));
    let start = front.iter().rposition(|byte| *byte == b'\n');
    let end = rest.iter().position(|byte| *byte == b'\n');
    Span::new(
        start.map_or(0, |feed| feed + 1),
        end.map_or(sheet.len(), |feed| front.len() + feed),
    )
}

/// The piece of a line that is shown around what is marked: the whole line, unless it is long. Of bytes that are no
/// text only the first is shown.
fn piece(sheet: &[u8], line: Span, marked: Span) -> Span {
    let no_text = |byte: &u8| byte.is_ascii_control() && !matches!(byte, b'\t' | b'\r');
    let wrong = sheet[line.start..line.end].iter().position(no_text);
    let end = wrong.map_or(line.end, |wrong| (line.start + wrong + 1).max(marked.end));
    let around = WIDEST.saturating_sub(marked.end - marked.start) / 2;
    let start = marked
        .start
        .saturating_sub(around)
        .min(end.saturating_sub(WIDEST));
    let start = start.max(line.start);
    Span::new(start, end.min(start + WIDEST).max(marked.start))
}

/// Bytes as they can be shown on one line: a tab is a blank, and what is no letter is the letter for that.
fn letters(bytes: &[u8]) -> String {
    let text = String::from_utf8_lossy(bytes);
    let shown = text
        .trim_end_matches('\r')
        .chars()
        .map(|letter| match letter {
            '\t' => ' ',
            letter if letter.is_control() || is_unseen(letter) => '\u{fffd}',
            letter => letter,
        });
    shown.collect()
}

/// The marks of a finding, its own first. Those of one line are shown in one piece of it, if they are near enough.
pub fn marks(sheet: &[u8], finding: &Finding) -> Vec<Mark> {
    let own = (finding.span, finding.label.clone());
    let spans: Vec<(Span, String)> = std::iter::once(own)
        .chain(finding.notes.iter().cloned())
        .collect();
    let mark = |(span, label): &(Span, String)| {
        let line = line_of(sheet, span.start);
        let end = |span: &Span| span.end.min(line.end);
        let beside = spans
            .iter()
            .filter(|(other, _)| line_of(sheet, other.start) == line);
        let all = beside.fold(Span::new(span.start, end(span)), |all, (other, _)| {
            Span::new(all.start.min(other.start), all.end.max(end(other)))
        });
        let near = all.end - all.start <= WIDEST;
        let marked = if near {
            all
        } else {
            Span::new(span.start, end(span))
        };
        Mark::of(sheet, *span, label, piece(sheet, line, marked))
    };
    spans.iter().map(mark).collect()
}

/// How a text stands out, if it may.
#[derive(Clone, Copy)]
enum Tone {
    Wrong,
    Words,
    Frame,
}

/// What is shown of a finding.
pub struct Shown<'d> {
    pub finding: &'d Finding,
    pub marks: &'d [Mark],
    /// The file's name, where there is one.
    pub name: Option<&'d str>,
    pub color: bool,
}

impl Shown<'_> {
    fn toned(&self, tone: Tone, text: &str) -> String {
        let code = match tone {
            Tone::Wrong => "\x1b[1;31m",
            Tone::Words => "\x1b[1m",
            Tone::Frame => "\x1b[1;34m",
        };
        match self.color && !text.is_empty() {
            true => format!("{code}{text}\x1b[0m"),
            false => text.to_string(),
        }
    }

    /// The lines of a mark: that of the sheet, unless it stands there already, and the mark.
    fn mark(&self, lines: &mut Vec<String>, margin: usize, mark: &Mark, before: Option<&Mark>) {
        let bar = self.toned(Tone::Frame, "|");
        let again =
            |before: &Mark| before.place.line == mark.place.line && before.text == mark.text;
        if !before.is_some_and(again) {
            if before.is_some_and(|before| mark.place.line != before.place.line + 1) {
                lines.push(self.toned(Tone::Frame, "..."));
            }
            let number = self.toned(Tone::Frame, &format!("{:margin$}", mark.place.line));
            lines.push(format!("{number} {bar} {}", mark.text));
        }
        let (sign, tone) = match std::ptr::eq(mark, &self.marks[0]) {
            true => ("^", Tone::Wrong),
            false => ("-", Tone::Frame),
        };
        let blanks = " ".repeat(mark.before);
        let signs = format!("{} {}", sign.repeat(mark.width), mark.label);
        let signs = self.toned(tone, signs.trim_end());
        lines.push(format!("{:margin$} {bar} {blanks}{signs}", ""));
    }
}

impl fmt::Display for Shown<'_> {
    fn fmt(&self, f: &mut fmt::Formatter<'_>) -> fmt::Result {
        let refused = format!("refused by question {}", self.finding.question);
        let message = format!(": {}", self.finding.message);
        let (refused, message) = (
            self.toned(Tone::Wrong, &refused),
            self.toned(Tone::Words, &message),
        );
        let Place { line, column } = self.marks[0].place;
        let place = match self.name {
            Some(name) => format!("{name}:{line}:{column}"),
            None => format!("line {line}, column {column}"),
        };
        let last = self.marks.iter().map(|mark| mark.place.line).max();
        let margin = last.unwrap_or(1).to_string().len();
        let bar = self.toned(Tone::Frame, "|");
        let mut lines = vec![
            format!("{refused}{message}"),
            format!("{:margin$}{} {place}", "", self.toned(Tone::Frame, "-->")),
            format!("{:margin$} {bar}", ""),
        ];
        // by lines, and in one line its own mark first
        let mut marks: Vec<&Mark> = self.marks.iter().collect();
        marks.sort_by_key(|mark| mark.place.line);
        for (index, mark) in marks.iter().enumerate() {
            let before = index.checked_sub(1).map(|before| marks[before]);
            self.mark(&mut lines, margin, mark, before);
        }
        if let Some(help) = &self.finding.help {
            let (sign, word) = (
                self.toned(Tone::Frame, "="),
                self.toned(Tone::Words, "help"),
            );
            lines.push(format!("{:margin$} {bar}", ""));
            lines.push(format!("{:margin$} {sign} {word}: {help}", ""));
        }
        f.write_str(&lines.join("\n"))
    }
}
