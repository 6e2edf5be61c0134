//! Step questions put over frames and answers that stand between canaries, and what the reader wants of them.

use reader::limits::FRAMES;
use reader::{ask_table, Table};

use crate::stepping::{ask, ask_all, start, Answer, Frame, ANSWER, ENDED, NONE, TOO_DEEP};

/// Frames on each side of those lent.
const SIDE: usize = 3;

/// Bytes on each side of the lent answers.
const EDGE: usize = 40;

/// What stands beside lent frames, and in lent answers.
const CANARY: u8 = 0xc5;

const BESIDE: Frame = Frame {
    equation: CANARY,
    values: [CANARY; 4],
};

/// What the depth holds where a start is to write it.
pub const UNSET: usize = 0x5eed_0000_0000_0002;

/// Everything lent, after a call, and what it answered.
#[derive(Clone, Debug, PartialEq, Eq)]
pub struct After {
    pub number: u8,
    pub frames: Vec<Frame>,
    pub depth: usize,
    /// The bytes of the lent answer or answers.
    pub answers: Vec<u8>,
}

/// Lends these frames between canaries, and says what they are afterwards.
fn lend(frames: &[Frame], call: impl FnOnce(&mut [Frame]) -> u8) -> (u8, Vec<Frame>) {
    let side = [BESIDE; SIDE];
    let mut lent = [&side, frames, &side].concat();
    let number = call(&mut lent[SIDE..SIDE + frames.len()]);
    let (front, rest) = lent.split_at(SIDE);
    let (frames, behind) = rest.split_at(frames.len());
    assert_eq!([front, behind], [side, side], "frames beside those lent");
    (number, frames.to_vec())
}

/// A start in these frames.
pub fn started(file: &[u8], frames: &[Frame], depth: usize) -> After {
    let mut depth = depth;
    let (number, frames) = lend(frames, |frames| start(file, frames, &mut depth));
    After {
        number,
        frames,
        depth,
        answers: Vec::new(),
    }
}

/// Step k of a stack in these frames.
pub fn asked(file: &[u8], frames: &[Frame], depth: usize, k: u64) -> After {
    let mut depth = depth;
    let mut answers = [canary(); 3];
    let (number, frames) = lend(frames, |frames| {
        ask(file, frames, &mut depth, k, &mut answers[1])
    });
    let beside = [answers[0], answers[2]];
    assert_eq!(beside, [canary(); 2], "bytes beside the answer");
    After {
        number,
        frames,
        depth,
        answers: answers[1].bytes.to_vec(),
    }
}

/// A list of questions, with this many bytes for answers.
pub fn asked_all(
    file: &[u8],
    frames: &[Frame],
    depth: usize,
    questions: &[u64],
    room: usize,
) -> After {
    let mut depth = depth;
    let mut bytes = vec![CANARY; EDGE + room + EDGE];
    let answers = &mut bytes[EDGE..EDGE + room];
    let (number, frames) = lend(frames, |frames| {
        ask_all(file, frames, &mut depth, questions, answers)
    });
    let (front, rest) = bytes.split_at(EDGE);
    let (answers, behind) = rest.split_at(room);
    assert_eq!(
        [front, behind],
        [[CANARY; EDGE]; 2],
        "bytes beside the answers"
    );
    After {
        number,
        frames,
        depth,
        answers: answers.to_vec(),
    }
}

/// An answer that has not been written.
fn canary() -> Answer {
    Answer {
        bytes: [CANARY; ANSWER],
    }
}

/// A refusal: everything lent is as it was.
pub fn refused(number: u8, frames: &[Frame], depth: usize, room: usize) -> After {
    After {
        number,
        frames: frames.to_vec(),
        depth,
        answers: vec![CANARY; room],
    }
}

/// What a reader's answer to one question means for everything lent.
pub fn meant(answer: &reader::Answer, frames: &[Frame], depth: usize) -> After {
    let (number, shown, frames, depth) = match answer {
        reader::Answer::Refused(number) => return refused(*number, frames, depth, ANSWER),
        reader::Answer::Ended => (0, Answer::plain(ENDED), frames.to_vec(), depth),
        reader::Answer::None => (0, Answer::plain(NONE), frames.to_vec(), depth),
        reader::Answer::Step {
            label,
            depth,
            frames,
        } => {
            let depth = *depth as usize;
            let shown = Answer::step(label, depth);
            (0, shown, crate::stepping::frames_of(frames), depth)
        }
    };
    After {
        number,
        frames,
        depth,
        answers: shown.bytes.to_vec(),
    }
}

/// The reader's answer to step k of these frames.
fn read(table: &Table, frames: &[Frame], depth: usize, k: u64) -> reader::Answer {
    let frames: Vec<reader::Frame> = frames.iter().map(|&frame| frame.into()).collect();
    ask_table(table, &frames, depth as u64, k)
}

/// What the reader wants of a question.
pub fn wanted(file: &[u8], frames: &[Frame], depth: usize, k: u64) -> After {
    match reader::read_table(file) {
        Ok(table) => meant(&read(&table, frames, depth, k), frames, depth),
        Err(number) => refused(number, frames, depth, ANSWER),
    }
}

/// What the reader wants of a list: questions 12 to 15 once, then as many questions as there is room for whole answers.
pub fn wanted_all(
    file: &[u8],
    frames: &[Frame],
    depth: usize,
    questions: &[u64],
    room: usize,
) -> After {
    let table = match reader::read_table(file) {
        Ok(table) => table,
        Err(number) => return refused(number, frames, depth, room),
    };
    if let reader::Answer::Refused(15) = read(&table, frames, depth, u64::MAX) {
        return refused(15, frames, depth, room);
    }
    let mut after = refused(0, frames, depth, 0);
    for &k in &questions[..questions.len().min(room / ANSWER)] {
        let next = meant(
            &read(&table, &after.frames, after.depth, k),
            &after.frames,
            after.depth,
        );
        after.answers.extend(if next.number == 16 {
            Answer::plain(TOO_DEEP).bytes.to_vec()
        } else {
            next.answers
        });
        (after.frames, after.depth) = (next.frames, next.depth);
    }
    after.answers.resize(room, CANARY);
    after
}

/// What the reader wants of a start.
pub fn wanted_start(file: &[u8], frames: &[Frame], depth: usize) -> After {
    let table = match reader::read_table(file) {
        Ok(table) => table,
        Err(number) => return refused(number, frames, depth, 0),
    };
    if frames.len() != FRAMES {
        return refused(15, frames, depth, 0);
    }
    After {
        number: 0,
        frames: lent(&crate::stepping::frames_of(&table.start_stack())),
        depth: 1,
        answers: Vec::new(),
    }
}

/// 64 frames that begin with these.
pub fn lent(used: &[Frame]) -> Vec<Frame> {
    let mut frames = used.to_vec();
    frames.resize(FRAMES, Frame::default());
    frames
}

/// Both say and do the same to a question; the number answered and the answer's kind.
pub fn same(file: &[u8], frames: &[Frame], depth: usize, k: u64, what: &str) -> (u8, u8) {
    let wanted = wanted(file, frames, depth, k);
    assert_eq!(asked(file, frames, depth, k), wanted, "{what}, k {k}");
    (wanted.number, wanted.answers[0])
}

/// The same of a list of questions.
pub fn same_all(
    file: &[u8],
    frames: &[Frame],
    depth: usize,
    questions: &[u64],
    room: usize,
    what: &str,
) -> After {
    let wanted = wanted_all(file, frames, depth, questions, room);
    let after = asked_all(file, frames, depth, questions, room);
    assert_eq!(after, wanted, "{what}, {questions:?} with {room} bytes");
    wanted
}

/// The same of a start; the number answered.
pub fn same_start(file: &[u8], frames: &[Frame], depth: usize, what: &str) -> u8 {
    let wanted = wanted_start(file, frames, depth);
    assert_eq!(started(file, frames, depth), wanted, "{what}");
    wanted.number
}
