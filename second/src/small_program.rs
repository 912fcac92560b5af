//! The small program of document 01: one input of bytes, read afresh, and the lines it prints.

use crate::afresh::read_afresh;
use crate::answer::{ROOM_WORDS, TREE_WORDS};

/// What the program prints for what it reads from standard input.
pub fn lines_for(input: &[u8]) -> String {
    let Some((table, codes, first)) = take_apart(input) else {
        return "no 0 0\n".to_string();
    };
    let mut tree = vec![0; TREE_WORDS];
    let mut room = vec![0; ROOM_WORDS];
    let answer = read_afresh(table, &codes, first, &mut tree, &mut room);
    if answer.number != 0 {
        return format!("no {} {}\n", answer.number, answer.place);
    }
    let count = tree[0] as usize;
    let mut lines = format!("ok {} {}\n", tree[0], tree[1]);
    for node in tree[2..2 + 3 * count].chunks_exact(3) {
        lines.push_str(&format!("{} {} {}\n", node[0], node[1], node[2]));
    }
    lines
}

/// Table, codes and first number; `None` for an input too short or too long.
fn take_apart(input: &[u8]) -> Option<(&[u8], Vec<u32>, u32)> {
    let (table, rest) = take_row(input)?;
    let (codes, rest) = take_row(rest)?;
    let first = u32::from_be_bytes(rest.try_into().ok()?);
    Some((table, codes.iter().map(|&code| code as u32).collect(), first))
}

/// A row of bytes behind its two-byte length, and what follows it.
fn take_row(bytes: &[u8]) -> Option<(&[u8], &[u8])> {
    let length = u16::from_be_bytes([*bytes.first()?, *bytes.get(1)?]) as usize;
    let rest = &bytes[2..];
    (length <= rest.len()).then(|| rest.split_at(length))
}
