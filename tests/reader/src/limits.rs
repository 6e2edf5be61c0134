//! Every limit and fixed size of document 01, named once.

/// Question 1: bytes of a sheet.
pub const SHEET_BYTES: usize = 4096;
/// Characters of a name.
pub const NAME_LENGTH: usize = 16;
/// Question 4: round brackets open at once.
pub const OPEN_BRACKETS: usize = 16;
/// Question 6: sorts, Bool among them.
pub const SORTS: usize = 8;
/// Question 6: values of a sort.
pub const SORT_SIZE: u8 = 16;
/// Question 6: functions.
pub const FUNCTIONS: usize = 16;
/// Question 6: actions.
pub const ACTIONS: usize = 32;
/// Question 6: written processes.
pub const PROCESSES: usize = 16;
/// Questions 6 and 10: parameters of a process or an equation.
pub const PARAMETERS: usize = 4;
/// Sorts of a function or an action, at most.
pub const ARITY: usize = 2;
/// Question 10: equations.
pub const EQUATIONS: usize = 64;
/// Question 10: summands of all equations together.
pub const SUMMANDS: usize = 255;
/// Question 10: sum variables of a summand.
pub const SUM_VARIABLES: usize = 4;
/// Question 10: conditions of a summand.
pub const CONDITIONS: usize = 8;
/// Question 10: calls of a summand.
pub const CALLS: usize = 8;
/// Question 10: nodes of a data term; the sort that follows `==` is none.
pub const TERM_NODES: usize = 31;
/// Question 10: bytes of the stream.
pub const STREAM_BYTES: usize = 64_768;
/// Bytes of a block of the table file.
pub const BLOCK_BYTES: usize = 512;
/// Question 12: bytes of a table file.
pub const FILE_BYTES: usize = 65_536;
/// Question 15: frames lent.
pub const FRAMES: usize = 64;
/// Steps a walk takes at most.
pub const WALK_STEPS: usize = 8;
