//! The command on good and bad input, one module for each of its words, and one for files that cannot be used.

mod ask;
mod check;
mod common;
mod files;
mod graph;
mod help;
mod make;
mod page;
mod print;
mod refusals;
mod show;
mod step;
mod walk;
mod words;
mod writes;
