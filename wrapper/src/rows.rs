//! The calls over rows that the caller lends, as document 01 has them: nothing is taken and nothing is kept between two calls.

use crate::answer::{answer, table_answer, Counts, Refusal, TableRefusal};
use crate::boundary;

/// The least words of a tree to write.
pub const TREE_WORDS: usize = 6146;
/// The least words of the working room.
pub const ROOM_WORDS: usize = 16384;
/// The most nodes of a tree.
pub const MOST_NODES: usize = 2048;
/// The most tokens of a text.
pub const MOST_TOKENS: usize = 2048;

/// One edit: at a place of the old text, counted in tokens from 0, so many are removed and so many put in.
#[repr(C)]
#[derive(Clone, Copy, PartialEq, Eq, Debug)]
pub struct Edit {
    /// Where, in tokens of the old text.
    pub place: u32,
    /// How many tokens are removed there.
    pub removed: u32,
    /// How many of the inserted codes are put in there.
    pub put_in: u32,
}

/// The table check.
pub fn check(table: &[u8]) -> Result<(), TableRefusal> {
    let (number, broken) = boundary::check(table);
    table_answer(number, broken)
}

/// A text read afresh. `tree` is written where it is accepted, and else as it was lent; `room` is as it was lent after [`Refusal::Small`],
/// else its first 16,384 words are 0.
pub fn read_afresh(
    table: &[u8],
    codes: &[u32],
    first: u32,
    tree: &mut [u32],
    room: &mut [u32],
) -> Result<Counts, Refusal> {
    let (number, told) = boundary::read_afresh(table, codes, first, tree, room);
    answer(number, told)
}

/// A tree updated after edits. The rows are written as by [`read_afresh`].
pub fn update(
    table: &[u8],
    old: &[u32],
    edits: &[Edit],
    put: &[u32],
    tree: &mut [u32],
    room: &mut [u32],
) -> Result<Counts, Refusal> {
    let (number, told) = boundary::update_edits(table, old, edits, put, tree, room);
    answer(number, told)
}

/// The same with the edits as a row of words, three an edit; a part of an edit at the end is [`Refusal::Text`].
pub fn update_words(
    table: &[u8],
    old: &[u32],
    edits: &[u32],
    put: &[u32],
    tree: &mut [u32],
    room: &mut [u32],
) -> Result<Counts, Refusal> {
    let (number, told) = boundary::update(table, old, edits, put, tree, room);
    answer(number, told)
}
