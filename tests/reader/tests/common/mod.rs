//! What the tests share: vectors, generated sheets, and small helpers.

#![allow(dead_code)]

pub mod boundaries;
pub mod generate;
pub mod json;
pub mod mutate;
pub mod operators;
pub mod random;
pub mod slow;
pub mod sort_sections;
pub mod states;
pub mod table_limits;
pub mod tables;
pub mod vectors;
pub mod worst;

use std::time::{Duration, Instant};

use reader::{Frame, Label, Table};

/// A sheet, what it tries, and the number of the question that it fails, or 0 if it is accepted.
#[derive(Clone)]
pub struct Case {
    pub what: String,
    pub sheet: Vec<u8>,
    pub wanted: u8,
}

impl Case {
    pub fn new(what: &str, sheet: impl Into<Vec<u8>>, wanted: u8) -> Self {
        let (what, sheet) = (what.to_string(), sheet.into());
        Case {
            what,
            sheet,
            wanted,
        }
    }
}

/// The number of the question that a sheet fails, or 0 if it is accepted.
pub fn verdict(sheet: &str) -> u8 {
    reader::make_table(sheet.as_bytes()).err().unwrap_or(0)
}

/// The stream of an accepted sheet's table.
pub fn stream(sheet: &str) -> Vec<u8> {
    reader::encode(&table(sheet))
}

/// An accepted sheet's table.
pub fn table(sheet: &str) -> Table {
    let file = reader::make_table(sheet.as_bytes()).expect(sheet);
    reader::read_table(&file).expect(sheet)
}

/// The label of an action of this name, with these sorts and values.
pub fn label(name: &str, sorts: &[&str], values: &[u8]) -> Label {
    Label::Action {
        name: name.to_string(),
        sorts: sorts.iter().map(|sort| sort.to_string()).collect(),
        values: values.to_vec(),
    }
}

/// 64 frames that begin with these.
pub fn lent(used: &[Frame]) -> Vec<Frame> {
    let mut frames = used.to_vec();
    frames.resize(reader::limits::FRAMES, Frame::default());
    frames
}

/// The text as often as given, with the joint between.
pub fn repeated(text: &str, times: usize, joint: &str) -> String {
    vec![text; times].join(joint)
}

/// The lines of the numbers below the count.
pub fn numbered(count: usize, line: impl Fn(usize) -> String) -> String {
    (0..count).map(line).collect()
}

/// Runs the work on a stack of 1 MiB, and asserts that it ends within the time.
pub fn within<T: Send + 'static>(limit: Duration, work: impl FnOnce() -> T + Send + 'static) -> T {
    let thread = std::thread::Builder::new().stack_size(1 << 20);
    let timed = move || {
        let start = Instant::now();
        let answer = work();
        (answer, start.elapsed())
    };
    let (answer, taken) = thread.spawn(timed).unwrap().join().unwrap();
    assert!(taken < limit, "took {taken:?}");
    answer
}

/// The verdict on a sheet whose process X has this right side.
pub fn body(text: &str) -> u8 {
    let declared = "func f:Bool->Bool=1,0;act a;act b:Bool;proc Y=a;proc Z(z:Bool)=b(z)";
    verdict(&format!("{declared};proc X={text};init X;"))
}

/// Each of these right sides gets this verdict.
pub fn bodies(wanted: u8, texts: &[&str]) {
    for text in texts {
        assert_eq!(body(text), wanted, "{text}");
    }
}

/// Each of these sheets gets this verdict.
pub fn sheets(wanted: u8, texts: &[&str]) {
    for text in texts {
        assert_eq!(verdict(text), wanted, "{text}");
    }
}
