//! Questions 1 and 2: the length, and the bytes.

use super::finding::{Finding, Found, Span};
use crate::MAX_SHEET;

const BYTE_ORDER_MARK: &[u8] = b"\xef\xbb\xbf";

/// The text of a sheet of right length and right bytes.
pub fn text(sheet: &[u8]) -> Found<&str> {
    if sheet.len() > MAX_SHEET {
        return Err(too_long(sheet));
    }
    let wrong = |byte: &u8| !matches!(byte, 0x20..=0x7e | b'\n');
    match (sheet.iter().position(wrong), std::str::from_utf8(sheet)) {
        (None, Ok(text)) => Ok(text),
        (place, _) => Err(wrong_byte(sheet, place.unwrap_or_default())),
    }
}

/// Whether the bytes begin as a table file does: block 0 of 1 to 128, and a count of sorts or the byte before it.
fn looks_like_table(bytes: &[u8]) -> bool {
    matches!(bytes.get(..512), Some([0, 0, 1..=128, 0, 1..=8 | 0xf2, ..]))
}

const TABLE: &str =
    "this looks like a table file, and not like a sheet: `wizbratel check --table` takes it as one";

fn too_long(sheet: &[u8]) -> Box<Finding> {
    let blanks = sheet[..MAX_SHEET].iter();
    let blanks = blanks.filter(|byte| byte.is_ascii_whitespace()).count();
    let help = match (looks_like_table(sheet), blanks) {
        (true, _) => TABLE.to_string(),
        (false, 0..512) => "shorten names, or cut the sheet in two".to_string(),
        (false, _) => {
            format!("{blanks} bytes before this are blanks and line feeds: leave some out")
        }
    };
    let span = Span::new(MAX_SHEET, MAX_SHEET + 1);
    Finding::new(1, span, "the sheet is longer than 4,096 bytes")
        .label("byte 4,097")
        .help(help)
}

fn wrong_byte(sheet: &[u8], place: usize) -> Box<Finding> {
    let rest = &sheet[place..];
    let (length, message, label, help) = if looks_like_table(sheet) {
        (1, "bytes that no text has".into(), "", Some(TABLE.into()))
    } else if place == 0 && rest.starts_with(BYTE_ORDER_MARK) {
        let help = "save the file as UTF-8 without a byte order mark, or as ASCII".into();
        (
            3,
            "the sheet begins with a byte order mark".into(),
            "",
            Some(help),
        )
    } else if place == 0 && (rest.starts_with(b"\xff\xfe") || rest.starts_with(b"\xfe\xff")) {
        let help = "save the file as ASCII".into();
        (2, "the sheet is written in UTF-16".into(), "", Some(help))
    } else {
        let letter = first_letter(rest);
        let length = letter.map_or(1, char::len_utf8);
        let (message, label) = words(letter, rest[0]);
        (length, message, label, letter.and_then(help))
    };
    let span = Span::new(place, place + length);
    Finding::new(2, span, message).label(label).help(help)
}

/// The letter that the bytes begin with, if they begin with one.
fn first_letter(bytes: &[u8]) -> Option<char> {
    bytes.utf8_chunks().next()?.valid().chars().next()
}

/// Whether a letter shows nothing, or changes how others are shown.
pub fn is_unseen(letter: char) -> bool {
    matches!(
        letter,
        '\u{ad}' | '\u{200b}'..='\u{200f}' | '\u{2028}'..='\u{202e}' | '\u{2060}'..='\u{206f}' | '\u{feff}'
    )
}

/// What the letter, or the byte where there is none, is called; and shorter, beside the mark.
fn words(letter: Option<char>, byte: u8) -> (String, &'static str) {
    match letter {
        Some('\t') => ("a tab stands here".into(), "a tab"),
        Some('\r') => ("a carriage return stands here".into(), "a carriage return"),
        Some('\u{a0}') => ("a no-break space stands here".into(), "a no-break space"),
        Some(letter) if is_unseen(letter) => {
            let message = format!(
                "a letter that is not seen stands here, U+{:04X}",
                u32::from(letter)
            );
            (message, "not seen")
        }
        Some(letter) if !letter.is_control() => (format!("`{letter}` is not ASCII"), "not ASCII"),
        _ => (format!("a byte hex {byte:02X} stands here"), "no text"),
    }
}

/// What to write in place of a letter.
fn help(letter: char) -> Option<String> {
    let instead = match letter {
        '\t' => return Some("write blanks in place of tabs".into()),
        '\r' => {
            let help = "lines end with a line feed alone: save the file with Unix line ends (`dos2unix` changes them)";
            return Some(help.into());
        }
        '\u{a0}' | '\u{2000}'..='\u{200a}' | '\u{202f}' | '\u{3000}' => {
            return Some("write a blank".into())
        }
        letter if is_unseen(letter) => return Some("leave it out".into()),
        '\u{2010}'..='\u{2015}' | '\u{2212}' | '\u{fe63}' | '\u{ff0d}' => {
            return Some("this is a dash, and no minus: write `-`, as in `->`".into())
        }
        '→' | '⟶' | '⇒' => "->",
        '∧' | '⋀' => "/\\",
        '∨' | '⋁' => "\\/",
        '¬' => "!",
        '·' | '⋅' | '•' | '∙' => ".",
        '×' => "#",
        '◁' | '◃' | '⊲' => "<|",
        '▷' | '▹' | '⊳' => "|>",
        'δ' | 'Δ' => "delta",
        'τ' => "tau",
        '∑' | 'Σ' => "sum",
        '≠' => return Some("write `!(x == y)`".into()),
        '\u{ff01}'..='\u{ff5e}' => "the same letter in ASCII",
        letter if letter.is_alphabetic() => {
            return Some("names have ASCII letters, digits and underscores alone".into())
        }
        _ => return None,
    };
    match instead.as_bytes().contains(&b' ') {
        true => Some(format!("write {instead}")),
        false => Some(format!("write `{instead}`")),
    }
}
