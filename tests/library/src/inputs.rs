//! Inputs that a document describes line by line: a sheet, its table file, lent frames, and what is asked.

use reader::limits::FRAMES;

use crate::asked::{asked, started, UNSET};
use crate::files::rechecked;
use crate::made::{made, made_whole};
use crate::printed::printed;
use crate::stepping::{Frame, ENDED, NONE};

/// What the lines have made so far.
#[derive(Default)]
struct Input {
    sheet: Vec<u8>,
    file: Vec<u8>,
    frames: Vec<Frame>,
    depth: usize,
    /// What was answered, once something was asked.
    answer: Option<String>,
}

/// `accepted`, or `refused` and the number.
pub fn in_words(number: u8) -> String {
    match number {
        0 => "accepted".to_string(),
        _ => format!("refused {number}"),
    }
}

fn number(word: &str) -> Result<usize, String> {
    word.parse().map_err(|_| format!("no number: {word}"))
}

pub(crate) fn byte(word: &str) -> Result<u8, String> {
    u8::from_str_radix(word, 16).map_err(|_| format!("no byte: {word}"))
}

fn value(word: &str) -> Result<u8, String> {
    word.parse().map_err(|_| format!("no value: {word}"))
}

impl Input {
    /// A sheet stands for its table file too, and for the start in 64 frames.
    fn sheet(&mut self, text: &str) {
        self.sheet = text.as_bytes().to_vec();
        if let Ok(file) = made_whole(&self.sheet) {
            self.file(file);
        }
    }

    /// A table file, and the start in 64 frames.
    fn file(&mut self, file: Vec<u8>) {
        let start = started(&file, &[Frame::default(); FRAMES], UNSET);
        (self.file, self.frames, self.depth) = (file, start.frames, start.depth);
    }

    fn frame(&mut self, words: &[&str]) -> Result<(), String> {
        let (place, numbers) = words.split_first().ok_or("no frame")?;
        let numbers: Vec<u8> = numbers
            .iter()
            .map(|word| value(word))
            .collect::<Result<_, _>>()?;
        let &[equation, ref values @ ..] = &numbers[..] else {
            return Err("no equation".to_string());
        };
        let values = values.try_into().map_err(|_| "not four values")?;
        let frame = self.frames.get_mut(number(place)?).ok_or("no such frame")?;
        *frame = Frame { equation, values };
        Ok(())
    }

    fn byte(&mut self, place: &str, hex: &str) -> Result<(), String> {
        let changed = self.file.get_mut(number(place)?).ok_or("no such byte")?;
        *changed = byte(hex)?;
        Ok(())
    }

    /// Asks for a step; a refusal leaves what was lent.
    fn ask(&self, k: u64) -> String {
        let after = asked(&self.file, &self.frames, self.depth, k);
        if after.number != 0 {
            assert_eq!((&after.frames, after.depth), (&self.frames, self.depth));
            return in_words(after.number);
        }
        match after.answers[0] {
            ENDED => "ended".to_string(),
            NONE => "none".to_string(),
            _ => format!("step {}", after.depth),
        }
    }

    fn line(&mut self, line: &str) -> Result<(), String> {
        let words: Vec<&str> = line.split_whitespace().collect();
        match words[..] {
            ["sheet", ..] => self.sheet(line["sheet".len()..].trim_start()),
            ["stream", ref bytes @ ..] => {
                let bytes = bytes.iter().map(|hex| byte(hex));
                self.file(reader::to_blocks(&bytes.collect::<Result<Vec<u8>, _>>()?));
            }
            ["blanks", length] => {
                self.sheet.resize(number(length)?, b' ');
                self.answer = Some(in_words(crate::check_sheet(&self.sheet)));
            }
            ["room", length] => {
                let number = made(&self.sheet, number(length)?).err().unwrap_or(0);
                self.answer = Some(in_words(number));
            }
            ["print", length] => {
                let number = printed(&self.file, number(length)?).err().unwrap_or(0);
                self.answer = Some(in_words(number));
            }
            ["length", length] => self.file.resize(number(length)?, 0),
            ["byte", place, hex] => self.byte(place, hex)?,
            ["check"] => self.file = rechecked(std::mem::take(&mut self.file)),
            ["frames", count] => self.frames.resize(number(count)?, Frame::default()),
            ["frame", ref words @ ..] => self.frame(words)?,
            ["depth", depth] => self.depth = number(depth)?,
            ["ask", k] => self.answer = Some(self.ask(number(k)? as u64)),
            _ => return Err(format!("no such line: {line}")),
        }
        Ok(())
    }
}

/// What the library answers to the input that these lines make: `accepted`, `refused N`, `ended`, `none` or `step D`.
pub fn answer(lines: &str) -> Result<String, String> {
    let mut input = Input::default();
    for line in lines.lines() {
        input.line(line)?;
    }
    let checked = || in_words(crate::check_table(&input.file));
    Ok(input.answer.clone().unwrap_or_else(checked))
}
