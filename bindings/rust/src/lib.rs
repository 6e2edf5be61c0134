//! Wizbratel: linear tables from pCRL process sheets, and steps through them.
//!
//! A *sheet* is a text of processes. [`Table::make`] makes its table, whose [file](Table::file) a bench can keep and
//! [read](Table::read) again. [`Table::start`] starts a stack, and a stack has steps, numbered from 0:
//!
//! ```
//! use wizbratel::Table;
//!
//! let table = Table::make(b"act a; act b; proc X = a.b + a; init X;")?;
//! let mut stack = table.start();
//! for step in stack.steps() {
//!     let (label, next) = step.way?;
//!     println!("{} {label} {}", step.k, next.depth());
//! }
//! assert_eq!(stack.take(0)?.unwrap().to_string(), "a");
//! assert_eq!(stack.take(0)?.unwrap().to_string(), "b");
//! assert!(stack.is_ended());
//! # Ok::<(), wizbratel::Refused>(())
//! ```
//!
//! A table whose sheet is lost can be [printed](Table::print) as one.
//!
//! What is not right is [`Refused`], with the first [`Question`] that it fails:
//!
//! ```
//! use wizbratel::Question;
//! let refused = wizbratel::check(b"proc X = X; init X;").unwrap_err();
//! assert_eq!((refused.number(), refused.question()), (9, Question::Circle));
//! ```
//!
//! Where and why a sheet is refused, [`Diagnostic`] says; what a sheet calls the equations of its table, [`SheetNames`].
//!
//! All answers are those of the proved library: nothing here decides anything about a sheet, a table or a stack. There
//! is no state, and any number of threads may call at once.
//!
//! A thread that checks sheets or makes their tables wants 192 KiB of stack, one that walks them 320 KiB, any other 128
//! KiB ([`STACK_SHEETS`], [`STACK_WALK`], [`STACK_TABLES`]), but one that says where sheets are wrong 1 MiB: a thread of
//! Rust's has 2 MB unless it is made with less.

#![deny(missing_docs)]
#![deny(unsafe_code)]
#![warn(clippy::missing_errors_doc, clippy::missing_panics_doc, clippy::must_use_candidate)]

mod diagnostic;
mod label;
mod questions;
mod refused;
mod stack;
mod steps;
#[allow(unsafe_code)]
mod sys;
mod table;

pub use diagnostic::{Diagnostic, EquationNames, SheetNames};
pub use label::Label;
pub use questions::{question, NoQuestion, Question};
pub use refused::Refused;
pub use stack::{Asked, Stack, Taken};
pub use steps::{Step, Steps};
pub use sys::{Frame, FRAMES, MAX_FILE, MAX_SHEET};
pub use sys::{STACK_SHEETS, STACK_TABLES, STACK_WALK};
pub use table::{check, make_into, walk, Table};

/// The README's example, run as those of the documentation are.
#[cfg(doctest)]
#[doc = include_str!("../README.md")]
struct Readme;
