//! What docs/LAYOUTS.md shows of a sheet, held against the sheet, the sources and the library.

use std::path::Path;

use reader::limits::FRAMES;

use crate::asked::{asked_all, started, After, UNSET};
use crate::followed::Followed;
use crate::held::{arrays, index, Arrays, Numbers};
use crate::inputs::{byte, in_words};
use crate::stepping::{Frame, ANSWER};

const WORDS: [&str; 8] = ["sort", "func", "act", "proc", "init", "sum", "delta", "tau"];
const LONG_MARKS: [(&str, &str); 6] = [
    ("->", "ARROW"),
    ("<|", "IF"),
    ("|>", "ELSE"),
    ("==", "SAME"),
    ("/\\", "AND"),
    ("\\/", "OR"),
];

const LEXER: &str = "crates/lexer/src/lib.rt";
const PARSER: &str = "crates/parser/src/codes.rt";
const NODES: &str = "crates/nodes/src/lib.rt";

/// Cells of the raw tree below this are tags.
const FIRST_TOKEN: usize = 32;

/// A line of a listing: the place of its first element, the elements up to two blanks, and the words behind them.
struct Line<'a> {
    place: usize,
    elements: Vec<&'a str>,
    words: Vec<&'a str>,
}

fn number(word: &str) -> Result<usize, String> {
    word.parse().map_err(|_| format!("no number: {word}"))
}

fn same<T: PartialEq + std::fmt::Debug>(got: T, wanted: T) -> Result<(), String> {
    match got == wanted {
        true => Ok(()),
        false => Err(format!("{got:?}, and not {wanted:?}")),
    }
}

fn lines(text: &str) -> Result<Vec<Line<'_>>, String> {
    let line = |line| {
        let line: &str = line;
        let (place, rest) = line.trim_start().split_once(' ').ok_or("no place")?;
        let rest = rest.trim_start();
        let (elements, words) = rest.split_once("  ").unwrap_or((rest, ""));
        Ok(Line {
            place: number(place)?,
            elements: elements.split(' ').collect(),
            words: words.split_whitespace().collect(),
        })
    };
    text.lines().map(line).collect()
}

/// The lines of a listing, if each begins where the one before it ends.
fn tiled(text: &str) -> Result<Vec<Line<'_>>, String> {
    let lines = lines(text)?;
    let mut at = 0;
    for line in &lines {
        same(line.place, at)?;
        at += line.elements.len();
    }
    Ok(lines)
}

/// Each cell of a listing with the word for it.
fn glossed(text: &str) -> Result<Vec<(usize, &str)>, String> {
    let mut pairs = Vec::new();
    for line in tiled(text)? {
        same(line.words.len(), line.elements.len())?;
        for (cell, word) in line.elements.into_iter().zip(line.words) {
            pairs.push((number(cell)?, word));
        }
    }
    Ok(pairs)
}

/// Where the numbers stand that constants of other files are made of.
const LIMITS: &str = "crates/limits/src/lib.rt";

/// The number that a sum of products of numbers and constants is worth, if each is known.
fn worth(value: &str, known: &Numbers, limits: &Numbers) -> Option<usize> {
    let factor = |word: &str| match word.strip_prefix("limits::") {
        Some(name) => limits.get(name).copied(),
        None => word.parse().ok().or_else(|| known.get(word).copied()),
    };
    let product = |words: &str| words.split(" * ").map(factor).product::<Option<usize>>();
    value.split(" + ").map(product).sum()
}

/// The public constants of a source file.
fn constants(file: &str) -> Result<Numbers, String> {
    let path = Path::new(env!("CARGO_MANIFEST_DIR"))
        .join("../..")
        .join(file);
    let text = std::fs::read_to_string(path).map_err(|wrong| format!("{file}: {wrong}"))?;
    let limits = if file == LIMITS {
        Numbers::new()
    } else {
        constants(LIMITS)?
    };
    let mut known = Numbers::new();
    let stated = |line: &str| -> Option<(String, String)> {
        let (name, rest) = line.strip_prefix("pub const ")?.split_once(": ")?;
        let (_, value) = rest.strip_suffix(';')?.split_once(" = ")?;
        Some((name.to_string(), value.to_string()))
    };
    for (name, value) in text.lines().filter_map(stated) {
        if let Some(number) = worth(&value, &known, &limits) {
            known.insert(name, number);
        }
    }
    Ok(known)
}

/// The public constants of a file are these: names, each with its number.
pub fn numbers_are(file: &str, text: &str) -> Result<(), String> {
    let words: Vec<&str> = text.split_whitespace().collect();
    let pairs = words.chunks(2).map(|pair| match pair {
        [name, value] => Ok((name.to_string(), number(value)?)),
        _ => Err("a name without a number".to_string()),
    });
    same(pairs.collect::<Result<Numbers, _>>()?, constants(file)?)
}

/// The tokens of a right sheet, each with its place.
fn tokens(sheet: &str) -> Vec<(usize, &str)> {
    let in_name = |c: char| c.is_ascii_alphanumeric() || c == '_';
    let mut found = Vec::new();
    let mut at = 0;
    while at < sheet.len() {
        let rest = &sheet[at..];
        let run = rest.find(|c| !in_name(c)).unwrap_or(rest.len());
        let long = LONG_MARKS.iter().any(|(mark, _)| rest.starts_with(mark));
        let length = if long { 2 } else { run.max(1) };
        if !rest.starts_with([' ', '\n']) {
            found.push((at, &rest[..length]));
        }
        at += length;
    }
    found
}

/// The cell of a token at a place.
fn cell(codes: &Numbers, (place, token): (usize, &str)) -> Result<usize, String> {
    let code = |name: &str| codes.get(name).copied().ok_or(format!("no {name}"));
    let first = token.as_bytes()[0];
    if let Some((_, name)) = LONG_MARKS.iter().find(|(mark, _)| *mark == token) {
        return code(name);
    }
    if WORDS.contains(&token) {
        return code(&token.to_uppercase());
    }
    match first {
        b'0'..=b'9' => Ok(code("FIRST_NUMERAL")? + number(token)?),
        b'A'..=b'Z' | b'a'..=b'z' => Ok(code("FIRST_NAME")? + place),
        _ => Ok(first.into()),
    }
}

/// The cells of a sheet's tokens, each with its token.
fn token_cells(sheet: &str) -> Result<Vec<(usize, &str)>, String> {
    let codes = constants(LEXER)?;
    let each = tokens(sheet).into_iter();
    each.map(|token| Ok((cell(&codes, token)?, token.1)))
        .collect()
}

/// The cells are those of the sheet's tokens.
pub fn tokens_are(sheet: &str, text: &str) -> Result<(), String> {
    same(glossed(text)?, token_cells(sheet)?)
}

/// The cell of a tag, or of a count of operands: `ors` and `ands` where there is only one, `ors+2` where two more stand behind it.
fn tag_or_count(codes: &Numbers, word: &str) -> Result<usize, String> {
    let (kind, more) = word.split_once('+').unwrap_or((word, "0"));
    let first = codes.get(&format!("FIRST_{}", kind.to_uppercase()));
    match (first, codes.get(&format!("{}_TAG", word.to_uppercase()))) {
        (Some(first), _) => Ok(first + number(more)?),
        (None, Some(tag)) => Ok(*tag),
        (None, None) => Err(format!("no {word}")),
    }
}

/// The cells below 32 and those of counts are what the words name, the others those of the sheet's names and numerals, in order.
pub fn raw_is(sheet: &str, text: &str) -> Result<(), String> {
    let (lexer, codes) = (constants(LEXER)?, constants(PARSER)?);
    let tokens = FIRST_TOKEN..codes["FIRST_ORS"];
    let (rest, shown): (Vec<_>, Vec<_>) = glossed(text)?
        .into_iter()
        .partition(|pair| tokens.contains(&pair.0));
    for (cell, word) in shown {
        same((word, tag_or_count(&codes, word)?), (word, cell))?;
    }
    let mut wanted = token_cells(sheet)?;
    wanted.retain(|pair| pair.0 >= lexer["FIRST_NUMERAL"]);
    same(rest, wanted)
}

/// The arrays that hold the sheet.
fn held(sheet: &str) -> Result<Arrays, String> {
    let sheet = reader::check_sheet(sheet.as_bytes()).map_err(|wrong| format!("{wrong:?}"))?;
    Ok(arrays(&sheet, &constants(NODES)?))
}

fn decimals(words: &[&str]) -> Result<Vec<usize>, String> {
    words.iter().map(|word| number(word)).collect()
}

/// The cells are those of the sheet's resolved terms.
pub fn terms_are(sheet: &str, text: &str) -> Result<(), String> {
    let lines = tiled(text)?.into_iter();
    let shown: Vec<&str> = lines.flat_map(|line| line.elements).collect();
    same(decimals(&shown)?, held(sheet)?["cells"].clone())
}

/// Each line has the name of an array and, before two blanks, what is used of it.
fn arrays_are(mut arrays: Arrays, text: &str) -> Result<(), String> {
    for line in text.lines() {
        let (name, rest) = line.split_once(' ').ok_or("no array")?;
        let front = rest.trim_start().split("  ").next().unwrap_or_default();
        let shown = decimals(&front.split(' ').collect::<Vec<_>>())?;
        same((name, Some(shown)), (name, arrays.remove(name)))?;
    }
    Ok(())
}

/// These arrays hold the sheet, or say where its new equations are.
pub fn rows_are(sheet: &str, text: &str) -> Result<(), String> {
    let mut arrays = held(sheet)?;
    let cells = token_cells(sheet)?;
    let declared = cells
        .windows(2)
        .filter(|pair| WORDS[..4].contains(&pair[0].1));
    arrays.insert("names", declared.map(|pair| pair[1].0).collect());
    arrays_are(arrays, text)
}

/// This is the index of the stream of the sheet's table.
pub fn index_is(sheet: &str, text: &str) -> Result<(), String> {
    let table = reader::read_table(&followed(sheet)?.file);
    arrays_are(index(&table.map_err(|wrong| format!("{wrong:?}"))?), text)
}

/// The bytes of a listing whose lines begin with their places.
pub fn placed(text: &str) -> Result<Vec<u8>, String> {
    let lines = tiled(text)?.into_iter();
    lines.flat_map(|line| line.elements).map(byte).collect()
}

fn followed(sheet: &str) -> Result<Followed, String> {
    Followed::of(sheet.as_bytes()).map_err(in_words)
}

/// The sheet's file is so long, and has these bytes at these places.
pub fn file_is(sheet: &str, length: &str, text: &str) -> Result<(), String> {
    let file = followed(sheet)?.file;
    same(file.len(), number(length)?)?;
    for line in lines(text)? {
        for (at, shown) in (line.place..).zip(line.elements) {
            same((at, file.get(at)), (at, Some(&byte(shown)?)))?;
        }
    }
    Ok(())
}

/// What a list of questions, from the start on, leaves.
fn after(sheet: &str, questions: &[&str]) -> Result<After, String> {
    let file = followed(sheet)?.file;
    let start = started(&file, &[Frame::default(); FRAMES], UNSET);
    let numbers = questions.iter().map(|k| Ok(number(k)? as u64));
    let ks: Vec<u64> = numbers.collect::<Result<_, String>>()?;
    let after = asked_all(&file, &start.frames, start.depth, &ks, ANSWER * ks.len());
    same(after.number, 0)?;
    Ok(after)
}

/// The bytes of each line, in hex, before two blanks.
fn pieces(text: &str) -> Result<Vec<Vec<u8>>, String> {
    let front = |line: &str| line.split("  ").next().unwrap_or_default().to_string();
    let line = |line: &str| front(line).split(' ').map(byte).collect();
    text.lines().map(line).collect()
}

/// Each line has a piece of the bytes.
fn pieces_are(bytes: &[u8], length: usize, shown: Vec<Vec<u8>>) -> Result<(), String> {
    let wanted: Vec<Vec<u8>> = bytes.chunks(length).map(<[u8]>::to_vec).collect();
    same(shown, wanted)
}

/// The stack that these questions lead to has these frames, in bytes.
pub fn frames_are(sheet: &str, questions: &[&str], text: &str) -> Result<(), String> {
    let after = after(sheet, questions)?;
    let used = after.frames[..after.depth].iter();
    let bytes: Vec<u8> = used
        .flat_map(|frame| [&[frame.equation][..], &frame.values].concat())
        .collect();
    pieces_are(&bytes, std::mem::size_of::<Frame>(), pieces(text)?)
}

/// These questions get these answers, in bytes; zeros at the end of one may be left out.
pub fn answers_are(sheet: &str, questions: &[&str], text: &str) -> Result<(), String> {
    let mut shown = pieces(text)?;
    let longer = |answer: &mut Vec<u8>| answer.resize(answer.len().max(ANSWER), 0);
    shown.iter_mut().for_each(longer);
    pieces_are(&after(sheet, questions)?.answers, ANSWER, shown)
}
