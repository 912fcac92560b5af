//! What the tests share: the house grammar and its tables, and calls over buffers of their own.

#![allow(dead_code)]

use second::answer::{ROOM_WORDS, TREE_WORDS};
use second::tools::make::{canonical, merged};
use second::tools::plan::{production, Grammar};
use second::{read_afresh, update, Answer};

pub const M: u32 = 1;
pub const OPEN: u32 = 2;
pub const CLOSE: u32 = 3;

const LIST: u8 = 129;
const ENTRY: u8 = 130;

pub fn house_grammar() -> Grammar {
    Grammar {
        terminals: 4,
        nonterminals: 3,
        productions: vec![
            production(0, &[LIST]),
            production(1, &[]),
            production(1, &[LIST, ENTRY]),
            production(2, &[M as u8]),
            production(2, &[OPEN as u8, LIST, CLOSE as u8]),
        ],
    }
}

pub fn merged_table(grammar: &Grammar) -> Vec<u8> {
    let plan = canonical(grammar, 200).expect("a small grammar");
    merged(&plan).bytes().expect("a merged table")
}

pub fn canonical_table(grammar: &Grammar) -> Vec<u8> {
    let plan = canonical(grammar, 200).expect("a small grammar");
    plan.bytes().expect("a canonical table")
}

pub fn house() -> Vec<u8> {
    merged_table(&house_grammar())
}

/// The answer's number, place and counts, with the words written.
pub type Told = (u32, u32, [u32; 5], Vec<u32>);

pub fn read(table: &[u8], codes: &[u32], first: u32) -> Told {
    told(|tree, room| read_afresh(table, codes, first, tree, room))
}

pub fn updated(table: &[u8], row: &[u32], edits: &[u32], put: &[u32]) -> Told {
    told(|tree, room| update(table, row, edits, put, tree, room))
}

fn told(call: impl FnOnce(&mut [u32], &mut [u32]) -> Answer) -> Told {
    let mut tree = vec![7; TREE_WORDS];
    let mut room = vec![7; ROOM_WORDS + 1];
    let answer = call(&mut tree, &mut room);
    assert!(room[..ROOM_WORDS].iter().all(|&word| word == 0) && room[ROOM_WORDS] == 7);
    let written = if answer.number == 0 { 2 + 3 * tree[0] as usize } else { 0 };
    assert!(tree[written..].iter().all(|&word| word == 7));
    tree.truncate(written);
    (answer.number, answer.place, answer.counts.in_order(), tree)
}

/// The row that a reading numbered from 1 writes.
pub fn row(table: &[u8], codes: &[u32]) -> Vec<u32> {
    let (number, _, _, row) = read(table, codes, 1);
    assert_eq!(number, 0);
    row
}

pub fn numbers(row: &[u32]) -> Vec<u32> {
    row[2..].iter().skip(1).step_by(3).copied().collect()
}
