//! The stepping functions, called safely, with the structs of `include/wizbratel.h`.

use reader::limits::PARAMETERS;
use reader::Label;

/// `wizbratel_frame`.
#[repr(C)]
#[derive(Clone, Copy, Debug, Default, PartialEq, Eq, Hash)]
pub struct Frame {
    pub equation: u8,
    pub values: [u8; PARAMETERS],
}

/// Bytes of a `wizbratel_answer`.
pub const ANSWER: usize = 72;

/// Where its fields stand: the count of the label's values and these, then the names of the action and of two sorts,
/// each with its length before it. Behind them are zeros.
const KIND: usize = 0;
const DEPTH: usize = 1;
const VALUES: usize = 2;
const NAME: usize = 5;
const SORTS: [usize; 2] = [23, 43];

/// `wizbratel_answer`, by its bytes: the library writes no more than these, at any place.
#[repr(C)]
#[derive(Clone, Copy, Debug, PartialEq, Eq)]
pub struct Answer {
    pub bytes: [u8; ANSWER],
}

pub const ENDED: u8 = 0;
pub const NONE: u8 = 1;
pub const STEP: u8 = 2;
pub const TOO_DEEP: u8 = 16;

extern "C" {
    fn wizbratel_start(
        file: *const u8,
        length: usize,
        frames: *mut Frame,
        count: usize,
        depth: *mut usize,
    ) -> u8;
    fn wizbratel_ask(
        file: *const u8,
        length: usize,
        frames: *mut Frame,
        count: usize,
        depth: *mut usize,
        k: u64,
        answer: *mut Answer,
    ) -> u8;
    fn wizbratel_ask_all(
        file: *const u8,
        length: usize,
        frames: *mut Frame,
        count: usize,
        depth: *mut usize,
        questions: *const u64,
        question_count: usize,
        answers: *mut Answer,
        bytes: usize,
    ) -> u8;
}

/// Questions 12 to 15: the table's start in the frames, depth 1.
pub fn start(file: &[u8], frames: &mut [Frame], depth: &mut usize) -> u8 {
    let (count, frames) = (frames.len(), frames.as_mut_ptr());
    // SAFETY: pointers and lengths are those of slices; what is written is lent mutably, each apart from the rest.
    unsafe { wizbratel_start(file.as_ptr(), file.len(), frames, count, depth) }
}

/// Questions 12 to 16: step k.
pub fn ask(
    file: &[u8],
    frames: &mut [Frame],
    depth: &mut usize,
    k: u64,
    answer: &mut Answer,
) -> u8 {
    let (count, frames) = (frames.len(), frames.as_mut_ptr());
    // SAFETY: as above.
    unsafe { wizbratel_ask(file.as_ptr(), file.len(), frames, count, depth, k, answer) }
}

/// Questions 12 to 15, then a list of step questions; the answers' room is lent as bytes.
pub fn ask_all(
    file: &[u8],
    frames: &mut [Frame],
    depth: &mut usize,
    questions: &[u64],
    answers: &mut [u8],
) -> u8 {
    let (count, frames) = (frames.len(), frames.as_mut_ptr());
    let (room, answers) = (answers.len(), answers.as_mut_ptr().cast());
    // SAFETY: as above; an answer has no padding and stands at any byte.
    unsafe {
        wizbratel_ask_all(
            file.as_ptr(),
            file.len(),
            frames,
            count,
            depth,
            questions.as_ptr(),
            questions.len(),
            answers,
            room,
        )
    }
}

impl From<reader::Frame> for Frame {
    fn from(frame: reader::Frame) -> Self {
        let reader::Frame { equation, values } = frame;
        Frame { equation, values }
    }
}

impl From<Frame> for reader::Frame {
    fn from(frame: Frame) -> Self {
        let Frame { equation, values } = frame;
        reader::Frame { equation, values }
    }
}

/// The library's frames of the reader's.
pub fn frames_of(frames: &[reader::Frame]) -> Vec<Frame> {
    frames.iter().map(|&frame| frame.into()).collect()
}

impl Answer {
    /// An answer that is no step: all bytes behind the kind are 0.
    pub fn plain(kind: u8) -> Self {
        let mut bytes = [0; ANSWER];
        bytes[KIND] = kind;
        Answer { bytes }
    }

    /// The answer of a step to this depth.
    pub fn step(label: &Label, depth: usize) -> Self {
        let mut answer = Answer::plain(STEP);
        answer.bytes[DEPTH] = depth as u8;
        match label {
            Label::Tau => answer.put(NAME, b"tau"),
            Label::Action {
                name,
                sorts,
                values,
            } => {
                answer.put(VALUES, values);
                answer.put(NAME, name.as_bytes());
                let places = SORTS.into_iter().zip(sorts);
                places.for_each(|(at, sort)| answer.put(at, sort.as_bytes()));
            }
        }
        answer
    }

    /// Writes a count and what it counts.
    fn put(&mut self, at: usize, listed: &[u8]) {
        self.bytes[at] = listed.len() as u8;
        self.bytes[at + 1..][..listed.len()].copy_from_slice(listed);
    }

    /// What stands behind a count.
    fn listed(&self, at: usize) -> &[u8] {
        &self.bytes[at + 1..][..usize::from(self.bytes[at])]
    }

    /// The kind of answer.
    pub fn kind(&self) -> u8 {
        self.bytes[KIND]
    }

    /// The depth after a step.
    pub fn depth(&self) -> usize {
        self.bytes[DEPTH].into()
    }

    /// The label of a step.
    pub fn shown(&self) -> Label {
        let text = |at| String::from_utf8(self.listed(at).to_vec()).expect("a name");
        let values = self.listed(VALUES);
        if self.listed(NAME) == b"tau" {
            return Label::Tau;
        }
        Label::Action {
            name: text(NAME),
            sorts: SORTS[..values.len()].iter().map(|&at| text(at)).collect(),
            values: values.to_vec(),
        }
    }

    /// The label of a step, as text.
    pub fn label(&self) -> String {
        self.shown().to_string()
    }
}
