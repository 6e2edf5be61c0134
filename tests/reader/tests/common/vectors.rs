//! The cases of `tests/vectors`, and what they want: `tests/vectors/README.md` says what each file is.

use std::path::{Path, PathBuf};

use reader::limits::{FILE_BYTES, STREAM_BYTES};
use reader::{Answer, Frame, Label};

use super::json::{self, Json};

/// What stands before the kind in a file's name: the base, data with operators, labels with sorts.
pub const SETS: [&str; 3] = ["", "operators-", "sorts-"];

/// The first byte of a stream that names its sorts.
const NAMED: u8 = 0xf2;

/// All vectors of a file in `tests/vectors`, but those that have the answers of an earlier reader.
pub fn of(file: &str) -> Vec<Json> {
    let mut cases = listed(file);
    cases.retain(|case| case.get("before").is_none());
    cases
}

/// All vectors of a file in `tests/vectors`.
pub fn listed(file: &str) -> Vec<Json> {
    let folders = Path::new(env!("CARGO_MANIFEST_DIR")).ancestors();
    let mut folders = folders.map(|folder| folder.join("tests/vectors"));
    let folder: PathBuf = folders.find(|folder| folder.is_dir()).expect("the vectors");
    let text = std::fs::read_to_string(folder.join(format!("{file}.jsonl"))).expect(file);
    text.lines().map(json::parse).collect()
}

/// All vectors of a kind: sheets, tables, asks or prints.
pub fn all(kind: &str) -> Vec<Json> {
    SETS.map(|set| of(&format!("{set}{kind}"))).concat()
}

/// The number behind `refused`.
pub fn number(answer: &str) -> u8 {
    let number = answer.strip_prefix("refused ").expect(answer);
    number.parse().expect("a question's number")
}

/// The names of a sheet's sorts, Bool first: of its lines `sort NAME SIZE;`, which come first.
fn sort_names(sheet: &str) -> Vec<&str> {
    let lines = sheet
        .split(';')
        .map(|line| line.split_whitespace().collect::<Vec<_>>());
    let names = lines.map_while(|words| match words[..] {
        ["sort", name, _] => Some(name),
        _ => None,
    });
    ["Bool"].into_iter().chain(names).collect()
}

/// The stream of an accepted sheet's table, from that of the earlier layout: hex F2, the count, and for
/// each sort its size, name length and name stand in place of count and sizes; the rest is the same.
fn named(sheet: &[u8], older: &[u8]) -> Vec<u8> {
    let sheet = std::str::from_utf8(sheet).expect("an accepted sheet");
    let names = sort_names(sheet);
    let (sizes, rest) = older[1..].split_at(usize::from(older[0]));
    assert_eq!(names.len(), sizes.len(), "{sheet}");
    let mut stream = vec![NAMED, older[0]];
    for (name, &size) in names.iter().zip(sizes) {
        stream.extend([size, name.len() as u8]);
        stream.extend(name.bytes());
    }
    stream.extend(rest);
    stream
}

/// The stream of the earlier layout that an accepted sheet's case gives, if it does.
pub fn older_stream(case: &Json) -> Option<Vec<u8>> {
    case.get("stream")?;
    let stream = case.bytes("stream");
    (stream[0] != NAMED).then_some(stream)
}

/// What is made of a case's sheet in an output of its room: the file, or the number of the question. A
/// stream that its sorts' names make too long is 10.
pub fn made(case: &Json) -> Result<Vec<u8>, u8> {
    if case.get("refused").is_some() {
        return Err(case.number("refused") as u8);
    }
    let stream = match older_stream(case) {
        Some(older) => named(&case.bytes("sheet"), &older),
        None => case.bytes("stream"),
    };
    if stream.len() > STREAM_BYTES {
        return Err(10);
    }
    let file = reader::to_blocks(&stream);
    if file.len() > room(case) {
        return Err(11);
    }
    Ok(file)
}

/// The bytes of output that a case lends.
pub fn room(case: &Json) -> usize {
    case.get("room")
        .map_or(FILE_BYTES, |_| case.number("room") as usize)
}

/// The walk of a case's sheet.
pub fn walk(case: &Json) -> String {
    match older_stream(case).map(|_| made(case)) {
        Some(Err(number)) => format!("refused {number}\n"),
        _ => case.text("walk").to_string(),
    }
}

/// Frames of a case; those of zeros at the end of the lent ones are left out there.
pub fn frames(case: &Json, key: &str) -> Vec<Frame> {
    let mut frames = used_frames(case, key);
    frames.resize(case.number("lent") as usize, Frame::default());
    frames
}

/// The frames that a case lists, each an equation and values.
pub fn used_frames(case: &Json, key: &str) -> Vec<Frame> {
    let frame = |row: &Vec<u64>| {
        let values: Vec<u8> = row[1..].iter().map(|&value| value as u8).collect();
        Frame::new(row[0] as usize, &values)
    };
    case.rows(key).iter().map(frame).collect()
}

/// The names of an action's sorts in the text that a table file is printed as.
pub fn printed_sorts(file: &[u8], action: &str) -> Vec<String> {
    let text = reader::printed(&reader::read_table(file).expect("a table"));
    let line = |line: &str| {
        let (name, sorts) = line.split_once(':').unwrap_or((line, ""));
        let sorts = sorts.split('#').filter(|sort| !sort.is_empty());
        (name == format!("act {action}")).then(|| sorts.map(str::to_string).collect())
    };
    text.split(';').find_map(line).expect("the action's line")
}

/// The label of a case: its text, and the names of its sorts. Of a table that has none they are those
/// that it is printed with.
pub fn label(case: &Json) -> Label {
    let text = case.text("label");
    let (name, values) = text.split_once('(').unwrap_or((text, ""));
    if name == "tau" {
        return Label::Tau;
    }
    let values = values.trim_end_matches(')').split(',');
    Label::Action {
        name: name.to_string(),
        sorts: match case.get("sorts") {
            Some(_) => case.texts("sorts"),
            None => printed_sorts(&case.bytes("file"), name),
        },
        values: values.filter_map(|value| value.parse().ok()).collect(),
    }
}

/// What a step question wants.
pub fn answer(case: &Json) -> Answer {
    match case.text("answer") {
        "ended" => Answer::Ended,
        "none" => Answer::None,
        "step" => Answer::Step {
            label: label(case),
            depth: case.number("depth_after"),
            frames: frames(case, "frames_after"),
        },
        refused => Answer::Refused(number(refused)),
    }
}

/// What a print wants: the text, or the number of the question.
pub fn printed(case: &Json) -> Result<String, u8> {
    match case.text("answer") {
        "text" => Ok(case.text("text").to_string()),
        refused => Err(number(refused)),
    }
}
