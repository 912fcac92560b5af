//! Checks an LR table, reads a text of tokens afresh and updates a tree after edits, by document 01.
//! It is a second program written from the documents alone; `tools` holds what the binary adds to it.

#![forbid(unsafe_code)]

pub mod afresh;
pub mod answer;
pub mod check;
pub mod conditions;
pub mod edits;
pub mod grammar;
pub mod machine;
pub mod numbers;
pub mod set;
pub mod sheet;
pub mod small_program;
pub mod tools;
pub mod tree;
pub mod update;

pub use afresh::read_afresh;
pub use answer::{Answer, Counts};
pub use check::{check, Check};
pub use update::update;
