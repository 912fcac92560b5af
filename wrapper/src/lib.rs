//! Blenkysnow from Rust: check an LR table, read a text of tokens into a tree, update the tree after edits. The names are document 01's;
//! docs/USERS.md explains them.
//!
//! [`Room`] holds the rows that a call works in. Its calls answer a [`Tree`] with its [`Counts`], or a [`Refusal`]. [`rows`] has the same
//! calls over rows that you lend yourself.
//!
//! It links libboundary.a, which `sh tools/build boundary` writes for x86-64 Linux: from the repository's target/staticlib, or from the folder
//! that the environment variable BLENKYSNOW_LIB names when it is built.
//!
//! ```
//! use blenkysnow::{house, Edit, Refusal, Room};
//!
//! let table = house();
//! let mut room = Room::new();
//! let old = room.read_afresh(&table, &[1, 1], 1)?.tree; // m m
//! let new = room.update(&table, &old, &[Edit { place: 1, removed: 1, put_in: 0 }], &[])?.tree;
//! let numbers: Vec<u32> = new.nodes().map(|node| node.number).collect();
//! assert_eq!(numbers, [1, 2, 3, 4]);
//! assert_eq!(new.next_number(), 8);
//! assert_eq!(room.read_afresh(&table, &[1, 3], 1).unwrap_err(), Refusal::NoAction { place: 1 });
//! # Ok::<(), Refusal>(())
//! ```
#![deny(unsafe_code)]
#![warn(missing_docs)]

mod answer;
mod boundary;
mod room;
pub mod rows;
mod tree;

pub use answer::{Counts, Refusal, TableRefusal};
pub use boundary::{house, HOUSE_BYTES};
pub use room::{Accepted, Room};
pub use rows::{check, Edit, MOST_NODES, MOST_TOKENS, ROOM_WORDS, TREE_WORDS};
pub use tree::{Kind, Node, Tree};
