//! Sheets changed by a seed.

use super::random::Random;
use super::repeated;

const TOKENS: [&str; 30] = [
    "(", ")", ",", ";", ":", "#", "=", "+", ".", "->", "<|", "|>", "sort", "func", "act", "proc",
    "init", "sum", "delta", "tau", "0", "1", "2", "255", "X", "a", "b", "d", "D", "Bool",
];

const OPERATORS: [&str; 14] = [
    "!", "!", "==", "==", "/\\", "/\\", "\\/", "\\/", "=", "(", ")", "0", "p0", "1==0",
];

const NUMERALS: [&str; 10] = ["0", "1", "2", "3", "15", "16", "17", "255", "256", "00"];

/// The text with a few tokens or bytes put in, left out or put for others.
pub fn mutant(random: &mut Random, sheet: &[u8]) -> Vec<u8> {
    spliced(random, sheet, &TOKENS)
}

/// The same with operators and what stands beside them.
pub fn operator_mutant(random: &mut Random, sheet: &[u8]) -> Vec<u8> {
    spliced(random, sheet, &OPERATORS)
}

fn spliced(random: &mut Random, sheet: &[u8], tokens: &[&str]) -> Vec<u8> {
    let mut text = sheet.to_vec();
    for _ in 0..1 + random.below(3) {
        let from = random.below(text.len() + 1);
        let to = (from + random.below(4)).min(text.len());
        let put = match random.below(4) {
            0 => Vec::new(),
            1 => vec![random.draw() as u8],
            2 => text[from..to].repeat(2),
            _ => random.pick(tokens).as_bytes().to_vec(),
        };
        text.splice(from..to, put);
    }
    text
}

/// The sheet changed in one of several ways; most keep its form, so that each of questions 1 to 9 fails now and then.
pub fn changed(random: &mut Random, sheet: &str) -> Vec<u8> {
    let text = match random.below(8) {
        0 | 1 => return mutant(random, sheet.as_bytes()),
        2 | 3 => renamed(random, sheet),
        4 => renumbered(random, sheet),
        5 => with_more_lines(random, sheet),
        6 => bracketed(random, sheet),
        _ => padded(random, sheet),
    };
    text.into_bytes()
}

/// Names, words and numerals whole, and every other character by itself.
fn pieces(sheet: &str) -> Vec<&str> {
    let inside = |byte: &u8| byte.is_ascii_alphanumeric() || *byte == b'_';
    let runs = sheet.as_bytes().chunk_by(|a, b| inside(a) && inside(b));
    runs.map(|run| std::str::from_utf8(run).expect("ASCII"))
        .collect()
}

/// Where the pieces stand that begin so.
fn places(pieces: &[&str], begins: fn(&u8) -> bool) -> Vec<usize> {
    let fits = |i: &usize| begins(&pieces[*i].as_bytes()[0]);
    (0..pieces.len()).filter(fits).collect()
}

/// A name or a word put for another one of the sheet.
fn renamed(random: &mut Random, sheet: &str) -> String {
    let mut pieces = pieces(sheet);
    let names = places(&pieces, u8::is_ascii_alphabetic);
    pieces[*random.pick(&names)] = pieces[*random.pick(&names)];
    pieces.concat()
}

/// A numeral, if there is any, put for another.
fn renumbered(random: &mut Random, sheet: &str) -> String {
    let mut pieces = pieces(sheet);
    let numerals = places(&pieces, u8::is_ascii_digit);
    if !numerals.is_empty() {
        pieces[*random.pick(&numerals)] = *random.pick(&NUMERALS);
    }
    pieces.concat()
}

/// One line again and again, mostly with a new name each time.
fn with_more_lines(random: &mut Random, sheet: &str) -> String {
    let mut lines: Vec<String> = sheet.split_inclusive(';').map(String::from).collect();
    let at = random.below(lines.len());
    let fresh = !random.one_in(4);
    let most = if random.one_in(2) { 3 } else { 34 };
    for number in 0..random.below(most) {
        let mut again = pieces(&lines[at]);
        let name = format!("n{number}");
        if fresh {
            again[2] = &name;
        }
        lines.insert(at + 1, again.concat());
    }
    lines.concat()
}

/// Brackets around a right side.
fn bracketed(random: &mut Random, sheet: &str) -> String {
    let mut lines: Vec<String> = sheet.split_inclusive(';').map(String::from).collect();
    let process = |i: &usize| lines[*i].starts_with("proc");
    let places: Vec<usize> = (0..lines.len()).filter(process).collect();
    let line = &mut lines[*random.pick(&places)];
    let count = random.below(19);
    *line = line
        .replacen('=', &format!("={}", "(".repeat(count)), 1)
        .replace(';', &format!("{};", ")".repeat(count)));
    lines.concat()
}

/// Blanks at some place between pieces, to about the longest sheet.
fn padded(random: &mut Random, sheet: &str) -> String {
    let mut pieces = pieces(sheet);
    let length = 4090 + random.below(13);
    let blanks = repeated(" ", length.saturating_sub(sheet.len()), "");
    pieces.insert(random.below(pieces.len() + 1), &blanks);
    pieces.concat()
}
