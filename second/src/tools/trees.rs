//! Old trees for updates: rows of fresh readings and of updates, other numbers, and damaged rows.

use std::collections::BTreeSet;

use crate::answer::{MOST_NODES, ROOM_WORDS, TREE_WORDS};
use crate::sheet::Sheet;
use crate::tools::case::MOST_ROW_WORDS;
use crate::tools::edit_lists::EditWords;
use crate::tools::random::Random;
use crate::tools::texts::{Derivations, Spare, Wanted};
use crate::tree::PRODUCTION;
use crate::{read_afresh, update};

/// The row of a fresh reading numbered from 1, if the text is accepted.
pub fn fresh_row(table: &[u8], codes: &[u32]) -> Option<Vec<u32>> {
    let mut tree = vec![0; TREE_WORDS];
    let mut room = vec![0; ROOM_WORDS];
    let answer = read_afresh(table, codes, 1, &mut tree, &mut room);
    if answer.number != 0 {
        return None;
    }
    tree.truncate(2 + 3 * tree[0] as usize);
    Some(tree)
}

/// The row after an update, if it is accepted.
pub fn updated_row(table: &[u8], row: &[u32], edits: &EditWords) -> Option<Vec<u32>> {
    let mut tree = vec![0; TREE_WORDS];
    let mut room = vec![0; ROOM_WORDS];
    let answer = update(table, row, &edits.words, &edits.put, &mut tree, &mut room);
    if answer.number != 0 {
        return None;
    }
    tree.truncate(2 + 3 * tree[0] as usize);
    Some(tree)
}

/// A tree of one node too many or a few, in order otherwise; `None` where none is found soon.
pub fn row_too_large(sheet: &Sheet, random: &mut Random) -> Option<Vec<u32>> {
    let derivations = Derivations::of(sheet);
    for _ in 0..4 {
        let nodes = random.between(MOST_NODES + 1, MOST_NODES + 4);
        let wanted = Wanted { nodes, spare: Spare::Any, eager: 100 };
        let (records, whole) = derivations.records(sheet.start(), wanted, random);
        if whole && records.len() > MOST_NODES && 2 + 3 * records.len() < MOST_ROW_WORDS - 9 {
            let count = records.len() as u32;
            let numbered = records.iter().zip(1..).map(|(&(kind, size), at)| [kind, at, size]);
            return Some([count, count + 1].into_iter().chain(numbered.flatten()).collect());
        }
    }
    None
}

/// Gives the nodes other distinct numbers, and the sheet another next number above them.
pub fn renumber(row: &mut [u32], random: &mut Random) {
    let count = row[0] as usize;
    let mut numbers: Vec<u32> = (1..=count as u32).collect();
    row[1] = match random.below(5) {
        0 => count as u32 + 1,
        1..=2 => count as u32 + 1 + random.below(50) as u32,
        3 => u32::MAX - random.below(3 * count + 20) as u32,
        _ => (random.word() as u32).max(count as u32 + 1),
    };
    if random.chance(70) {
        numbers = distinct_below(row[1], count, random);
        random.shuffle(&mut numbers);
    }
    for (at, number) in numbers.into_iter().enumerate() {
        row[2 + 3 * at + 1] = number;
    }
}

/// So many distinct numbers, at least 1 and below the next number.
fn distinct_below(next_number: u32, count: usize, random: &mut Random) -> Vec<u32> {
    let range = next_number as usize - 1;
    if range < 4 * count {
        let mut all: Vec<u32> = (1..next_number).collect();
        random.shuffle(&mut all);
        all.truncate(count);
        return all;
    }
    let mut chosen = BTreeSet::new();
    while chosen.len() < count {
        chosen.insert(1 + random.below(range) as u32);
    }
    chosen.into_iter().collect()
}

/// Damages a row: count, next number, a node's kind, number or size, whole records, or its length.
pub fn damage_row(row: &mut Vec<u32>, sheet: &Sheet, random: &mut Random) {
    let count = row[0] as usize;
    let record = 2 + 3 * random.below(count);
    match random.below(15) {
        0 => row[0] = *random.pick(&[0, row[0] - 1, row[0] + 1, 2048, 2049, u32::MAX]),
        1 => row[1] = *random.pick(&[0, 1, row[1] - 1, row[3], row[0]]),
        2 => row[record] = wrong_kind(sheet, random),
        3 => row[record] = random.between(1, 256 + sheet.productions.len()) as u32,
        4 => row[record + 1] = *random.pick(&[0, row[1], u32::MAX, row[3], row[row.len() - 2]]),
        5 => {
            row[record + 2] =
                *random.pick(&[0, 1, row[record + 2] + 1, row[record + 2] - 1, u32::MAX])
        }
        6 => row.truncate(random.below(row.len())),
        7 => row.truncate(row.len() - random.between(1, 3).min(row.len())),
        8 => exchange_records(row, random),
        9 => leave_out_record(row, record),
        10 => keep_piece(row, record),
        11 => row.truncate(random.below(2)),
        12 => row[record + 1] = 0,
        13 => give_other_left_side(row, sheet, random),
        _ => add_records(row, random),
    }
}

fn wrong_kind(sheet: &Sheet, random: &mut Random) -> u32 {
    let (terminals, productions) = (sheet.terminals as u32, sheet.productions.len() as u32);
    *random.pick(&[0, 1, terminals, 255, 256, 257, 256 + productions, u32::MAX])
}

/// Gives a node another production of the same right side, or as long a one, with another left side.
fn give_other_left_side(row: &mut [u32], sheet: &Sheet, random: &mut Random) {
    let rules = &sheet.productions;
    for _ in 0..8 {
        let record = 2 + 3 * random.below(row[0] as usize);
        let Some(own) = row[record].checked_sub(PRODUCTION).map(|own| &rules[own as usize]) else {
            continue;
        };
        let unlike = |at: &usize| *at > 0 && rules[*at].left != own.left;
        let alike = |at: &usize| unlike(at) && rules[*at].right_side() == own.right_side();
        let as_long = |at: &usize| unlike(at) && rules[*at].length == own.length;
        let mut others: Vec<usize> = (0..rules.len()).filter(alike).collect();
        if others.is_empty() {
            others = (0..rules.len()).filter(as_long).collect();
        }
        if !others.is_empty() {
            row[record] = PRODUCTION + *random.pick(&others) as u32;
            return;
        }
    }
}

fn exchange_records(row: &mut [u32], random: &mut Random) {
    let count = row[0] as usize;
    let (one, other) = (2 + 3 * random.below(count), 2 + 3 * random.below(count));
    for word in 0..3 {
        row.swap(one + word, other + word);
    }
}

fn leave_out_record(row: &mut Vec<u32>, record: usize) {
    row.drain(record..record + 3);
    row[0] -= 1;
}

/// Makes the piece of one record the whole tree; in order if it is of the start symbol.
fn keep_piece(row: &mut Vec<u32>, record: usize) {
    let size = row[record + 2];
    row.truncate(record + 3);
    row.drain(2..record + 3 - 3 * size as usize);
    row[0] = size;
}

/// Adds a node above the root by production 0, or a second tree behind.
fn add_records(row: &mut Vec<u32>, random: &mut Random) {
    let number = row[1];
    let more = match random.chance(50) {
        true => vec![256, number, row[0] + 1],
        false => row[2..].iter().copied().take(row[0] as usize * 3).collect(),
    };
    if row.len() + more.len() <= MOST_ROW_WORDS {
        row[0] += more.len() as u32 / 3;
        row[1] = number.saturating_add(1);
        row.extend(more);
    }
}
