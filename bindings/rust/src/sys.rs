//! The exported functions of the proved library, with the structs of `include/wizbratel.h`, called safely.
//!
//! The library asks three things of a caller, and of each call below they hold for one reason. A pointer leads to as
//! many elements as the length beside it says: both are those of one slice, or the pointer is a reference's. Nothing
//! else writes there meanwhile: what is read is lent by `&`, what is written by `&mut`. What is written overlaps
//! nothing else that is lent: two `&mut`, or a `&` and a `&mut`, never overlap. Whatever bytes come back are values
//! of their types, since all of them are integers or structs of integers.

use std::mem::{align_of, offset_of, size_of, size_of_val};

/// The longest sheet, in bytes: an output of this length is never too short for a table's text.
pub const MAX_SHEET: usize = 4096;

/// The longest table file, in bytes: an output of this length is never too short.
pub const MAX_FILE: usize = 65_536;

/// The longest text of a walk, in bytes.
pub(crate) const MAX_WALK: usize = 238;

/// Bytes of stack that a thread wants if it checks sheets or makes their tables; room to spare is in it.
pub const STACK_SHEETS: usize = 192 << 10;

/// Bytes of stack that a thread wants if it walks sheets.
pub const STACK_WALK: usize = 320 << 10;

/// Bytes of stack that a thread wants for everything else: tables and stacks.
pub const STACK_TABLES: usize = 128 << 10;

/// The frames that a stack has room for.
pub const FRAMES: usize = 64;

/// A frame of a stack: an equation, and the values of its parameters with zeros behind them.
#[repr(C)]
#[derive(Clone, Copy, Debug, Default, PartialEq, Eq, Hash, PartialOrd, Ord)]
pub struct Frame {
    /// The equation's number.
    pub equation: u8,
    /// The values of its parameters, spare ones 0.
    pub values: [u8; 4],
}

/// `wizbratel_sort`: the name of a sort, zeros behind it.
#[repr(C)]
#[derive(Clone, Copy, Default, PartialEq, Eq, Hash, PartialOrd, Ord)]
pub(crate) struct SortName {
    pub length: u8,
    pub name: [u8; 19],
}

/// `wizbratel_label`: as many values and sorts as it says, zeros behind them and behind the name.
#[repr(C)]
#[derive(Clone, Copy, Default, PartialEq, Eq, Hash, PartialOrd, Ord)]
pub(crate) struct LabelRecord {
    pub value_count: u8,
    pub values: [u8; 2],
    pub name_length: u8,
    pub name: [u8; 17],
    pub sorts: [SortName; 2],
}

/// `wizbratel_answer`.
#[repr(C)]
#[derive(Clone, Copy, Default)]
pub(crate) struct Answer {
    pub kind: u8,
    pub depth: u8,
    pub label: LabelRecord,
    _reserved: u8,
    _reserved_for_count: u64,
}

/// Kinds of an answer.
pub(crate) const ENDED: u8 = 0;
pub(crate) const NONE: u8 = 1;
pub(crate) const STEP: u8 = 2;
pub(crate) const TOO_DEEP: u8 = 16;

// The sizes that C gives the structs; none has padding.
const _: () = assert!(size_of::<Frame>() == 5 && align_of::<Frame>() == 1);
const _: () = assert!(size_of::<SortName>() == 20 && size_of::<LabelRecord>() == 61);
const _: () = assert!(size_of::<Answer>() == 72 && align_of::<Answer>() == 8);
const _: () = assert!(offset_of!(Answer, label) == 2 && offset_of!(Answer, _reserved) == 63);

extern "C" {
    fn wizbratel_check_sheet(sheet: *const u8, length: usize) -> u8;
    fn wizbratel_make_table(
        sheet: *const u8,
        length: usize,
        out: *mut u8,
        room: usize,
        written: *mut usize,
    ) -> u8;
    fn wizbratel_walk(sheet: *const u8, length: usize, out: *mut u8, room: usize) -> usize;
    fn wizbratel_check_table(file: *const u8, length: usize) -> u8;
    fn wizbratel_print_table(
        table: *const u8,
        length: usize,
        out: *mut u8,
        room: usize,
        written: *mut usize,
    ) -> u8;
    fn wizbratel_start(
        file: *const u8,
        length: usize,
        frames: *mut Frame,
        count: usize,
        depth: *mut usize,
    ) -> u8;
    fn wizbratel_ask(
        file: *const u8,
        length: usize,
        frames: *mut Frame,
        count: usize,
        depth: *mut usize,
        k: u64,
        answer: *mut Answer,
    ) -> u8;
    fn wizbratel_ask_all(
        file: *const u8,
        length: usize,
        frames: *mut Frame,
        count: usize,
        depth: *mut usize,
        questions: *const u64,
        question_count: usize,
        answers: *mut Answer,
        bytes: usize,
    ) -> u8;
}

/// Questions 1 to 10 of a sheet.
pub(crate) fn check_sheet(sheet: &[u8]) -> u8 {
    // SAFETY: pointer and length are the slice's, which the function only reads.
    unsafe { wizbratel_check_sheet(sheet.as_ptr(), sheet.len()) }
}

/// Questions 1 to 11: the sheet's table file over the front of the output, and its length.
pub(crate) fn make_table(sheet: &[u8], out: &mut [u8], written: &mut usize) -> u8 {
    let (room, out) = (out.len(), out.as_mut_ptr());
    // SAFETY: pointers and lengths are the slices'; `out` and `written` are lent mutably, so apart from all else.
    unsafe { wizbratel_make_table(sheet.as_ptr(), sheet.len(), out, room, written) }
}

/// The walk of a sheet over the front of the output, as far as there is room, and its length there.
pub(crate) fn walk(sheet: &[u8], out: &mut [u8]) -> usize {
    let (room, out) = (out.len(), out.as_mut_ptr());
    // SAFETY: pointers and lengths are the slices'; `out` is lent mutably, so apart from the sheet.
    unsafe { wizbratel_walk(sheet.as_ptr(), sheet.len(), out, room) }
}

/// Questions 12 to 14 of a table file.
pub(crate) fn check_table(file: &[u8]) -> u8 {
    // SAFETY: pointer and length are the slice's, which the function only reads.
    unsafe { wizbratel_check_table(file.as_ptr(), file.len()) }
}

/// Questions 12 to 14, 17 and 11: the table's sheet over the front of the output, and its length.
pub(crate) fn print_table(file: &[u8], out: &mut [u8], written: &mut usize) -> u8 {
    let (room, out) = (out.len(), out.as_mut_ptr());
    // SAFETY: pointers and lengths are the slices'; `out` and `written` are lent mutably, so apart from all else.
    unsafe { wizbratel_print_table(file.as_ptr(), file.len(), out, room, written) }
}

/// Questions 12 to 15: the table's start in the frames, and depth 1.
pub(crate) fn start(file: &[u8], frames: &mut [Frame], depth: &mut usize) -> u8 {
    let (count, frames) = (frames.len(), frames.as_mut_ptr());
    // SAFETY: pointers and lengths are the slices'; `frames` and `depth` are lent mutably, so apart from all else.
    unsafe { wizbratel_start(file.as_ptr(), file.len(), frames, count, depth) }
}

/// Questions 12 to 16: step k, taken.
pub(crate) fn ask(
    file: &[u8],
    frames: &mut [Frame],
    depth: &mut usize,
    k: u64,
    answer: &mut Answer,
) -> u8 {
    let (count, frames) = (frames.len(), frames.as_mut_ptr());
    // SAFETY: as in `start`; `answer` is lent mutably too, and has the size and the fields of C's.
    unsafe { wizbratel_ask(file.as_ptr(), file.len(), frames, count, depth, k, answer) }
}

/// Questions 12 to 15 once, then each question in turn, as far as there is room for answers.
pub(crate) fn ask_all(
    file: &[u8],
    frames: &mut [Frame],
    depth: &mut usize,
    questions: &[u64],
    answers: &mut [Answer],
) -> u8 {
    let (count, frames) = (frames.len(), frames.as_mut_ptr());
    let (bytes, answers) = (size_of_val(answers), answers.as_mut_ptr());
    let (asked, questions) = (questions.len(), questions.as_ptr());
    // SAFETY: as in `ask`; the room for answers is given in bytes, as many as the slice has.
    unsafe {
        wizbratel_ask_all(
            file.as_ptr(),
            file.len(),
            frames,
            count,
            depth,
            questions,
            asked,
            answers,
            bytes,
        )
    }
}
