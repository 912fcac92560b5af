//! Edits: their rules (refusal 6), and the reading list they make of an old tree.

use std::ops::Range;

use crate::answer::MOST_TOKENS;
use crate::sheet::Sheet;
use crate::tree::{piece_begin, OldTree};

/// An edit within its rules; `put` is its part of the inserted codes.
#[derive(Clone, PartialEq, Eq, Debug)]
pub struct Edit {
    pub place: usize,
    pub removed: usize,
    pub put: Range<usize>,
}

/// Takes lent edit words apart; `None` where edits or inserted codes break their rules.
pub fn edits_in_rule(
    sheet: &Sheet,
    old_tokens: usize,
    words: &[u32],
    put: &[u32],
) -> Option<Vec<Edit>> {
    if !words.len().is_multiple_of(3) || !put.iter().all(|&code| sheet.is_token(code)) {
        return None;
    }
    let mut edits = Vec::with_capacity(words.len() / 3);
    // The end of the last edit in the old text, the codes used up, the tokens removed.
    let (mut end, mut used, mut removed) = (0u64, 0u64, 0u64);
    for record in words.chunks_exact(3) {
        let [place, gone, came] = [record[0] as u64, record[1] as u64, record[2] as u64];
        if place < end || place + gone > old_tokens as u64 || used + came > put.len() as u64 {
            return None;
        }
        let part = used as usize..(used + came) as usize;
        edits.push(Edit { place: place as usize, removed: gone as usize, put: part });
        (end, used, removed) = (place + gone, used + came, removed + gone);
    }
    let result = old_tokens as u64 - removed + used;
    (used == put.len() as u64 && result <= MOST_TOKENS as u64).then_some(edits)
}

/// What stands in the reading list; the end mark is the list's end.
#[derive(Clone, Copy, PartialEq, Eq, Debug)]
pub enum Element {
    /// A piece of the old tree, by its node's place there; a token or a nonterminal.
    Old(usize),
    /// An inserted token.
    Put(u32),
}

/// The largest clean pieces and the inserted tokens, last one first, so that the next one to be
/// read is at the row's end.
pub fn reading_list(old: &OldTree, edits: &[Edit], put: &[u32]) -> Vec<Element> {
    let changes = Changes::of(old.token_nodes.len(), edits);
    let mut list = Vec::new();
    let mut edits_left = edits;
    // Going down the written order meets a parent before its children, the last child first.
    let mut end = old.nodes.len();
    while end > 0 {
        let node = end - 1;
        let tokens = old.token_range(node);
        if !changes.leave_clean(&tokens) {
            end -= 1;
            continue;
        }
        edits_left = push_inserted(&mut list, edits_left, tokens.end, put);
        list.push(Element::Old(node));
        end = piece_begin(&old.nodes, node);
    }
    push_inserted(&mut list, edits_left, 0, put);
    list
}

/// Pushes what the edits at or behind a place put in, last one first; gives back the edits before it.
fn push_inserted<'a>(
    list: &mut Vec<Element>,
    edits: &'a [Edit],
    place: usize,
    put: &[u32],
) -> &'a [Edit] {
    let before = edits.partition_point(|edit| edit.place < place);
    for edit in edits[before..].iter().rev() {
        list.extend(put[edit.put.clone()].iter().rev().map(|&code| Element::Put(code)));
    }
    &edits[..before]
}

/// Running sums over the old text that tell what is clean.
struct Changes {
    /// Old tokens removed before each place.
    removed_before: Vec<u32>,
    /// Places before each place at which something is put in.
    gaps_before: Vec<u32>,
}

impl Changes {
    fn of(old_tokens: usize, edits: &[Edit]) -> Changes {
        let mut removed = vec![0; old_tokens];
        let mut gaps = vec![0; old_tokens + 1];
        for edit in edits {
            removed[edit.place..edit.place + edit.removed].fill(1);
            if !edit.put.is_empty() {
                gaps[edit.place] = 1;
            }
        }
        Changes { removed_before: sums_before(&removed), gaps_before: sums_before(&gaps) }
    }

    /// Whether there are tokens, all of them remain, and nothing is put in between them.
    fn leave_clean(&self, tokens: &Range<usize>) -> bool {
        !tokens.is_empty()
            && self.removed_before[tokens.start] == self.removed_before[tokens.end]
            && self.gaps_before[tokens.start + 1] == self.gaps_before[tokens.end]
    }
}

/// The sum of the words before each place, the end included.
fn sums_before(words: &[u32]) -> Vec<u32> {
    let mut sums = Vec::with_capacity(words.len() + 1);
    sums.push(0);
    sums.extend(words.iter().scan(0, |sum, word| {
        *sum += word;
        Some(*sum)
    }));
    sums
}
