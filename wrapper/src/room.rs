//! The calls with rows of their own: what is answered is a tree of its own size.

use crate::answer::{Counts, Refusal};
use crate::rows::{self, Edit, ROOM_WORDS, TREE_WORDS};
use crate::tree::Tree;

/// The rows that calls work in, for use again and again: the tree to write and the working room. They are long enough for every text, so
/// [`Refusal::Small`] is never answered.
pub struct Room {
    tree: Vec<u32>,
    room: Vec<u32>,
}

/// What an accepted call answers.
#[derive(Clone, PartialEq, Eq, Debug)]
pub struct Accepted {
    /// The tree.
    pub tree: Tree,
    /// The five counts.
    pub counts: Counts,
}

impl Room {
    /// Rows of the lengths that document 01 asks for.
    pub fn new() -> Room {
        Room { tree: vec![0; TREE_WORDS], room: vec![0; ROOM_WORDS] }
    }

    /// A text read afresh; its nodes are numbered upward from `first`.
    pub fn read_afresh(
        &mut self,
        table: &[u8],
        codes: &[u32],
        first: u32,
    ) -> Result<Accepted, Refusal> {
        let counts = rows::read_afresh(table, codes, first, &mut self.tree, &mut self.room)?;
        Ok(Accepted { tree: Tree::from_row(&self.tree), counts })
    }

    /// A tree updated after edits, on the table with which it was read. What stood whole in the old tree keeps its numbers.
    pub fn update(
        &mut self,
        table: &[u8],
        old: &Tree,
        edits: &[Edit],
        put: &[u32],
    ) -> Result<Accepted, Refusal> {
        let counts = rows::update(table, old.words(), edits, put, &mut self.tree, &mut self.room)?;
        Ok(Accepted { tree: Tree::from_row(&self.tree), counts })
    }
}

impl Default for Room {
    fn default() -> Room {
        Room::new()
    }
}
