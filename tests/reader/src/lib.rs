//! A reader of the rules of document 01, with the changes #101, #102 and #104 of document 02, written
//! apart from the proved library: sheets, linear tables, table files, stacks, closed terms and
//! equality to n steps.

#![forbid(unsafe_code)]
#![warn(missing_docs)]

mod blocks;
mod check;
mod circles;
mod count;
mod data;
mod decode;
mod decode_data;
mod equations;
mod file;
mod heads;
mod hex;
mod layout;
pub mod limits;
mod linear;
mod names;
mod parse;
mod parse_data;
mod parse_process;
mod print;
mod print_data;
mod put;
pub mod question;
mod search;
pub mod sheet;
pub mod signature;
mod sorts;
mod stack;
mod steps;
mod stream;
mod syntax;
mod system;
pub mod table;
mod term;
mod token;
mod transitions;
mod walk;

pub use blocks::{crc16, from_blocks, to_blocks};
pub use check::check_sheet;
pub use file::{encode_file, make_table, make_table_within, read_table};
pub use hex::{from_hex, to_hex};
pub use layout::Layout;
pub use linear::linear_table;
pub use print::{print_table, print_table_within, printed};
pub use question::Refusal;
pub use sheet::Sheet;
pub use stack::{ask, ask_list, ask_table, frame_right, Answer, Frame};
pub use steps::{all_steps, step};
pub use stream::encode;
pub use system::{State, States};
pub use table::Table;
pub use term::{Term, Terms};
pub use transitions::{bears, equal_to, Label, Transitions};
pub use walk::walk;
