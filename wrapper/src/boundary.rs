//! The five functions of libboundary.a, as include/blenkysnow.h declares them, and a safe function over each. Nothing else here is unsafe.
#![allow(unsafe_code)]

use std::mem::{align_of, size_of};

use crate::rows::Edit;

/// The bytes of the house table.
pub const HOUSE_BYTES: usize = 320;

extern "C" {
    fn blenkysnow_house(table: *mut u8);
    fn blenkysnow_check(table: *const u8, table_bytes: usize, broken: *mut u32) -> u32;
    fn blenkysnow_read_afresh(
        table: *const u8,
        table_bytes: usize,
        codes: *const u32,
        code_count: usize,
        first: u32,
        tree: *mut u32,
        tree_words: usize,
        room: *mut u32,
        room_words: usize,
        told: *mut u32,
    ) -> u32;
    fn blenkysnow_update(
        table: *const u8,
        table_bytes: usize,
        old: *const u32,
        old_words: usize,
        edits: *const u32,
        edit_words: usize,
        put: *const u32,
        put_count: usize,
        tree: *mut u32,
        tree_words: usize,
        room: *mut u32,
        room_words: usize,
        told: *mut u32,
    ) -> u32;
    fn blenkysnow_update_edits(
        table: *const u8,
        table_bytes: usize,
        old: *const u32,
        old_words: usize,
        edits: *const Edit,
        edit_count: usize,
        put: *const u32,
        put_count: usize,
        tree: *mut u32,
        tree_words: usize,
        room: *mut u32,
        room_words: usize,
        told: *mut u32,
    ) -> u32;
}

// SAFETY, of every call below: each pointer comes from a slice or an array with the length that goes with it, so it is not null, also of an
// empty row; what is written is borrowed as `&mut`, so it overlaps nothing else; and the functions are proved to stay within what they are
// lent, to end, and to keep no pointer. The small arrays are written whole by every call; what they hold before is seen by no one.

/// The house table: terminals end, m (1), `[` (2), `]` (3).
pub fn house() -> [u8; HOUSE_BYTES] {
    let mut table = [0; HOUSE_BYTES];
    unsafe { blenkysnow_house(table.as_mut_ptr()) };
    table
}

/// The number that the table check answers, and the condition and state that it names.
pub(crate) fn check(table: &[u8]) -> (u32, [u32; 2]) {
    let mut broken = [u32::MAX; 2];
    let number = unsafe { blenkysnow_check(table.as_ptr(), table.len(), broken.as_mut_ptr()) };
    (number, broken)
}

/// The number of a reading's answer, and its place and five counts.
pub(crate) fn read_afresh(
    table: &[u8],
    codes: &[u32],
    first: u32,
    tree: &mut [u32],
    room: &mut [u32],
) -> (u32, [u32; 6]) {
    let mut told = [u32::MAX; 6];
    let number = unsafe {
        blenkysnow_read_afresh(
            table.as_ptr(),
            table.len(),
            codes.as_ptr(),
            codes.len(),
            first,
            tree.as_mut_ptr(),
            tree.len(),
            room.as_mut_ptr(),
            room.len(),
            told.as_mut_ptr(),
        )
    };
    (number, told)
}

/// The number of an update's answer, and its place and five counts.
pub(crate) fn update(
    table: &[u8],
    old: &[u32],
    edits: &[u32],
    put: &[u32],
    tree: &mut [u32],
    room: &mut [u32],
) -> (u32, [u32; 6]) {
    let mut told = [u32::MAX; 6];
    let number = unsafe {
        blenkysnow_update(
            table.as_ptr(),
            table.len(),
            old.as_ptr(),
            old.len(),
            edits.as_ptr(),
            edits.len(),
            put.as_ptr(),
            put.len(),
            tree.as_mut_ptr(),
            tree.len(),
            room.as_mut_ptr(),
            room.len(),
            told.as_mut_ptr(),
        )
    };
    (number, told)
}

// An edit is three words in a row, with nothing between them (`repr(C)`), as it is behind the boundary.
const _: () = assert!(size_of::<Edit>() == 12 && align_of::<Edit>() == align_of::<u32>());

/// The same with the edits as structs.
pub(crate) fn update_edits(
    table: &[u8],
    old: &[u32],
    edits: &[Edit],
    put: &[u32],
    tree: &mut [u32],
    room: &mut [u32],
) -> (u32, [u32; 6]) {
    let mut told = [u32::MAX; 6];
    let number = unsafe {
        blenkysnow_update_edits(
            table.as_ptr(),
            table.len(),
            old.as_ptr(),
            old.len(),
            edits.as_ptr(),
            edits.len(),
            put.as_ptr(),
            put.len(),
            tree.as_mut_ptr(),
            tree.len(),
            room.as_mut_ptr(),
            room.len(),
            told.as_mut_ptr(),
        )
    };
    (number, told)
}

#[cfg(test)]
mod tests {
    use super::*;

    const TREE: usize = 6146;
    const ROOM: usize = 16384;

    /// Number, place and counts of a reading of the house table over rows of these lengths.
    fn read(codes: &[u32], first: u32, tree: usize, room: usize) -> (u32, [u32; 6]) {
        read_afresh(&house(), codes, first, &mut vec![5; tree], &mut vec![5; room])
    }

    #[test]
    fn every_word_is_written_whatever_is_answered() {
        assert_eq!(check(&house()), (0, [0, 0]));
        assert_eq!(check(&[]), (2, [0, 0]));
        assert_eq!(read(&[1], 1, TREE, ROOM), (0, [0, 0, 0, 0, 1, 3]));
        assert_eq!(read(&[1], 1, TREE - 1, ROOM), (1, [0; 6]));
        assert_eq!(read(&[1], 1, TREE, ROOM - 1), (1, [0; 6]));
        assert_eq!(read(&[1], 0, TREE, ROOM), (6, [0; 6]));
        assert_eq!(read(&[1, 3], 1, TREE, ROOM), (7, [1, 0, 0, 0, 0, 0]));
        assert_eq!(read(&[1; 683], 1, TREE, ROOM), (8, [0; 6]));
        assert_eq!(read(&[1], u32::MAX, TREE, ROOM), (9, [0; 6]));
        let refused = update(&house(), &[], &[], &[], &mut [5; TREE], &mut [5; ROOM]);
        assert_eq!(refused, (5, [0; 6]));
    }

    #[test]
    fn edits_as_words_and_as_structs_are_the_same() {
        let (mut old, mut room) = ([5; TREE], [5; ROOM]);
        assert_eq!(read_afresh(&house(), &[1, 2, 3], 1, &mut old, &mut room).0, 0);
        let edits =
            [Edit { place: 0, removed: 1, put_in: 1 }, Edit { place: 2, removed: 0, put_in: 1 }];
        let (mut words, mut structs) = ([5; TREE], [5; TREE]);
        let row = [0, 1, 1, 2, 0, 1];
        let said = update(&house(), &old, &row, &[1, 1], &mut words, &mut room);
        assert_eq!(said, update_edits(&house(), &old, &edits, &[1, 1], &mut structs, &mut room));
        assert_eq!((said.0, words[1]), (0, 20));
        assert_eq!(words, structs);
    }
}
