//! Stacks of frames, and the question for step k put to lent frames (questions 15 and 16).

use crate::limits::{FRAMES, PARAMETERS};
use crate::question::{self, put, Refusal};
use crate::read_table;
use crate::steps::step;
use crate::table::Table;
use crate::transitions::Label;

/// A frame: an equation number and four values, spare ones 0.
#[derive(Clone, Copy, Debug, Default, PartialEq, Eq, Hash)]
pub struct Frame {
    /// The equation's number.
    pub equation: u8,
    /// Values of its parameters, then zeros.
    pub values: [u8; PARAMETERS],
}

impl Frame {
    /// The frame of an equation with these values, spare ones 0.
    pub fn new(equation: usize, values: &[u8]) -> Self {
        let equation = u8::try_from(equation).expect("equation numbers are bytes");
        let mut frame = Frame {
            equation,
            ..Frame::default()
        };
        frame.values[..values.len()].copy_from_slice(values);
        frame
    }
}

/// The answer to a question for step k.
#[derive(Clone, Debug, PartialEq, Eq)]
pub enum Answer {
    /// Refused, with the number of the first question failed.
    Refused(Refusal),
    /// The stack is empty.
    Ended,
    /// There are at most k steps.
    None,
    /// The step's label, the new depth, and the 64 frames with zeros past the new stack.
    Step {
        /// The label.
        label: Label,
        /// The new depth.
        depth: u64,
        /// All lent frames after the step.
        frames: Vec<Frame>,
    },
}

/// Asks for step k of a stack of a table file; the top frame is the last used one.
pub fn ask(file: &[u8], frames: &[Frame], depth: u64, k: u64) -> Answer {
    match read_table(file) {
        Ok(table) => ask_table(&table, frames, depth, k),
        Err(number) => Answer::Refused(number),
    }
}

/// Asks for step k of a stack of a table that has been read.
pub fn ask_table(table: &Table, frames: &[Frame], depth: u64, k: u64) -> Answer {
    answer(table, frames, depth, k).unwrap_or_else(Answer::Refused)
}

/// Puts a list of questions in turn: each gets the frames and depth that the last one left.
pub fn ask_list(
    file: &[u8],
    frames: &mut [Frame],
    depth: &mut u64,
    questions: &[u64],
) -> Vec<Answer> {
    let mut answers = Vec::new();
    for &k in questions {
        let answer = ask(file, frames, *depth, k);
        if let Answer::Step {
            depth: after,
            frames: left,
            ..
        } = &answer
        {
            *depth = *after;
            frames.copy_from_slice(left);
        }
        answers.push(answer);
    }
    answers
}

fn answer(table: &Table, frames: &[Frame], depth: u64, k: u64) -> Result<Answer, Refusal> {
    let used = used_frames(table, frames, depth).ok_or(question::STACK)?;
    if used.is_empty() {
        return Ok(Answer::Ended);
    }
    let Some((label, mut next)) = step(table, used, k) else {
        return Ok(Answer::None);
    };
    put(question::DEPTH, next.len() <= FRAMES)?;
    let depth = next.len() as u64;
    next.resize(FRAMES, Frame::default());
    Ok(Answer::Step {
        label,
        depth,
        frames: next,
    })
}

/// Question 15: the used frames, if the lent ones are a stack of the table.
fn used_frames<'f>(table: &Table, frames: &'f [Frame], depth: u64) -> Option<&'f [Frame]> {
    let depth = usize::try_from(depth).ok()?;
    if frames.len() != FRAMES || depth > FRAMES {
        return None;
    }
    let (used, unused) = frames.split_at(depth);
    let zeros = unused.iter().all(|frame| *frame == Frame::default());
    (zeros && used.iter().all(|frame| frame_right(table, frame))).then_some(used)
}

/// An equation of the table with values in its sorts, spare ones 0.
pub fn frame_right(table: &Table, frame: &Frame) -> bool {
    let Some(equation) = table.equations.get(usize::from(frame.equation)) else {
        return false;
    };
    let sorts = &equation.parameters;
    let (values, spare) = frame.values.split_at(sorts.len());
    let in_sort = |(&value, &sort): (&u8, &usize)| value < table.signature.size(sort);
    values.iter().zip(sorts).all(in_sort) && spare.iter().all(|&value| value == 0)
}
