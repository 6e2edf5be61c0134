//! The proved library, called safely: each function takes slices and asks nothing of the caller.

pub mod asked;
#[path = "../../reader/tests/common/mod.rs"]
pub mod common;
pub mod files;
pub mod followed;
pub mod held;
pub mod inputs;
pub mod large;
pub mod layouts;
pub mod listings;
pub mod made;
pub mod output;
pub mod painted;
pub mod printed;
pub mod printing;
pub mod program;
pub mod questions;
pub mod reached;
pub mod sheets;
pub mod stepping;
pub mod timing;
pub mod words;

extern "C" {
    fn wizbratel_check_sheet(sheet: *const u8, length: usize) -> u8;
    fn wizbratel_make_table(
        sheet: *const u8,
        length: usize,
        out: *mut u8,
        room: usize,
        written: *mut usize,
    ) -> u8;
    fn wizbratel_walk(sheet: *const u8, length: usize, out: *mut u8, room: usize) -> usize;
    fn wizbratel_check_table(file: *const u8, length: usize) -> u8;
    fn wizbratel_print_table(
        table: *const u8,
        length: usize,
        out: *mut u8,
        room: usize,
        written: *mut usize,
    ) -> u8;
    fn measures_crc(bytes: *const u8, length: usize) -> u16;
}

/// Questions 1 to 10 of a sheet: the number of the first that fails, or 0.
pub fn check_sheet(sheet: &[u8]) -> u8 {
    // SAFETY: the pointer and the length are those of a slice, which the function only reads.
    unsafe { wizbratel_check_sheet(sheet.as_ptr(), sheet.len()) }
}

/// Questions 1 to 11: the sheet's table file over the front of the output, and its length; or the number of the first
/// question that fails.
pub fn make_table(sheet: &[u8], out: &mut [u8], written: &mut usize) -> u8 {
    let (room, out) = (out.len(), out.as_mut_ptr());
    // SAFETY: as above; what is written is lent mutably, each apart from the rest.
    unsafe { wizbratel_make_table(sheet.as_ptr(), sheet.len(), out, room, written) }
}

/// The walk of a sheet over the front of the output, as far as there is room, and its length there.
pub fn walk(sheet: &[u8], out: &mut [u8]) -> usize {
    let (room, out) = (out.len(), out.as_mut_ptr());
    // SAFETY: as above.
    unsafe { wizbratel_walk(sheet.as_ptr(), sheet.len(), out, room) }
}

/// Questions 12 to 14 of a table file: the number of the first that fails, or 0.
pub fn check_table(file: &[u8]) -> u8 {
    // SAFETY: as in `check_sheet`.
    unsafe { wizbratel_check_table(file.as_ptr(), file.len()) }
}

/// Questions 12 to 14, 17 and 11: the table's sheet over the front of the output, and its length; or the number of the
/// first question that fails.
pub fn print_table(file: &[u8], out: &mut [u8], written: &mut usize) -> u8 {
    let (room, out) = (out.len(), out.as_mut_ptr());
    // SAFETY: as in `make_table`.
    unsafe { wizbratel_print_table(file.as_ptr(), file.len(), out, room, written) }
}

/// CRC-16, exported by `measures` to be timed.
pub fn crc(bytes: &[u8]) -> u16 {
    // SAFETY: as in `check_sheet`.
    unsafe { measures_crc(bytes.as_ptr(), bytes.len()) }
}
