//! Words read from a terminal or a pipe, with the ends of lines between them.

use std::io::{BufRead, Bytes, Result as Io};

/// The longest word that is kept; no command is as long.
const LONGEST: usize = 40;

/// What was read.
#[derive(Debug, PartialEq, Eq)]
pub enum Word {
    /// A run of characters without blanks; of a long one only the beginning.
    Text(String),
    /// The end of a line.
    Line,
}

/// Words of an input, which is read no further than needed.
pub struct Words<R> {
    bytes: Bytes<R>,
    line: bool,
}

impl<R: BufRead> Words<R> {
    /// The words of a buffered input.
    pub fn new(input: R) -> Self {
        let bytes = input.bytes();
        Words { bytes, line: false }
    }

    /// The next word or end of line; none at the end of the input.
    pub fn read(&mut self) -> Io<Option<Word>> {
        if std::mem::take(&mut self.line) {
            return Ok(Some(Word::Line));
        }
        let mut word = Vec::new();
        for byte in self.bytes.by_ref() {
            match byte? {
                b'\n' if word.is_empty() => return Ok(Some(Word::Line)),
                b'\n' => {
                    self.line = true;
                    break;
                }
                blank if blank.is_ascii_whitespace() && word.is_empty() => {}
                blank if blank.is_ascii_whitespace() => break,
                byte if word.len() < LONGEST => word.push(byte),
                _ => {}
            }
        }
        let text = String::from_utf8_lossy(&word).into_owned();
        Ok((!text.is_empty()).then_some(Word::Text(text)))
    }
}

#[cfg(test)]
mod tests {
    use std::io::{BufReader, Read};

    use super::*;

    #[test]
    fn words_and_lines() {
        let mut words = Words::new(&b" 1  u\n\n q"[..]);
        let mut read = Vec::new();
        while let Some(word) = words.read().unwrap() {
            read.push(word);
        }
        let text = |text: &str| Word::Text(text.to_string());
        let wanted = [text("1"), text("u"), Word::Line, Word::Line, text("q")];
        assert_eq!(read, wanted);
    }

    #[test]
    fn a_word_without_end() {
        let mut words = Words::new(BufReader::new(std::io::repeat(b'1').take(1 << 20)));
        let text = "1".repeat(LONGEST);
        assert_eq!(words.read().unwrap(), Some(Word::Text(text)));
        assert_eq!(words.read().unwrap(), None);
    }
}
