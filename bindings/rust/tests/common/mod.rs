//! What the tests share: vectors and generated sheets, taken from the reader's tests.

#![allow(dead_code)]

#[path = "../../../../tests/reader/tests/common/generate.rs"]
pub mod generate;
#[path = "../../../../tests/reader/tests/common/json.rs"]
pub mod json;
#[path = "../../../../tests/reader/tests/common/random.rs"]
pub mod random;
#[path = "../../../../tests/reader/tests/common/vectors.rs"]
pub mod vectors;

use wizbratel::{Frame, Label, Refused};

/// The label that the reader would give.
pub fn label_of(label: &Label) -> reader::Label {
    if label.is_tau() {
        assert_eq!((label.sorts().len(), label.values()), (0, &[][..]));
        return reader::Label::Tau;
    }
    reader::Label::Action {
        name: label.name().to_string(),
        sorts: label.sorts().map(str::to_string).collect(),
        values: label.values().to_vec(),
    }
}

/// The reader's frames as this crate's.
pub fn frames_of(frames: &[reader::Frame]) -> Vec<Frame> {
    let frame = |frame: &reader::Frame| Frame {
        equation: frame.equation,
        values: frame.values,
    };
    frames.iter().map(frame).collect()
}

/// The number of a refusal, where there is one.
pub fn number<T>(answer: &Result<T, Refused>) -> Option<u8> {
    answer.as_ref().err().map(|refused| refused.number())
}
