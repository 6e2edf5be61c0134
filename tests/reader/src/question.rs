//! The numbers of the questions; a refusal is the number of the first one failed.

/// The number of the first question failed.
pub type Refusal = u8;

/// At most 4,096 bytes?
pub const SHEET_LENGTH: Refusal = 1;
/// Each byte hex 20 to 7E or hex 0A?
pub const BYTES: Refusal = 2;
/// All tokens?
pub const TOKENS: Refusal = 3;
/// Never more than 16 round brackets open?
pub const BRACKETS: Refusal = 4;
/// The form of a sheet?
pub const FORM: Refusal = 5;
/// Counts of sorts, functions, actions, processes and parameters; sizes of sorts?
pub const COUNTS: Refusal = 6;
/// Every declared name new, each used name of the kind its place needs?
pub const NAMES: Refusal = 7;
/// Argument counts, sorts, numerals and function values right?
pub const SORTS: Refusal = 8;
/// No circle of processes at the head?
pub const CIRCLES: Refusal = 9;
/// The table within its limits?
pub const TABLE_LIMITS: Refusal = 10;
/// The lent output long enough?
pub const OUTPUT: Refusal = 11;
/// Length of the table file right?
pub const FILE_LENGTH: Refusal = 12;
/// Each block's number, block count and check right?
pub const BLOCKS: Refusal = 13;
/// The stream that of a table, in the fewest blocks?
pub const STREAM: Refusal = 14;
/// The lent frames a stack of the table?
pub const STACK: Refusal = 15;
/// At most 64 frames after the step?
pub const DEPTH: Refusal = 16;
/// The printed text one that passes questions 1 to 8?
pub const PRINTED: Refusal = 17;

/// `Ok` if the question is answered yes, else its number.
pub(crate) fn put(number: Refusal, yes: bool) -> Result<(), Refusal> {
    if yes {
        Ok(())
    } else {
        Err(number)
    }
}
