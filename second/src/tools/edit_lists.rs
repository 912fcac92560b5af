//! Edit lists of every kind for an old tree: those that keep the grammar, loose ones, and wrong ones.

use crate::sheet::Sheet;
use crate::tools::case::MOST_CODES;
use crate::tools::random::Random;
use crate::tools::texts::{damage_text, wrong_code, Derivations, Wanted};
use crate::tree::OldTree;

#[derive(Clone, PartialEq, Eq, Debug)]
pub struct MadeEdit {
    pub place: usize,
    pub removed: usize,
    pub put: Vec<u32>,
}

/// The edit words and inserted codes that a case carries.
pub struct EditWords {
    pub words: Vec<u32>,
    pub put: Vec<u32>,
}

/// What edits are made from.
pub struct EditMaker<'a> {
    pub sheet: &'a Sheet,
    pub old: &'a OldTree,
    pub derivations: &'a Derivations<'a>,
}

impl EditMaker<'_> {
    /// A list of edits within the rules.
    pub fn edits(&self, random: &mut Random) -> Vec<MadeEdit> {
        // A large tree is near the limits of nodes half of the time.
        let kinds = if self.old.nodes.len() > 1_500 { 40 } else { 21 };
        let mut edits = match random.below(kinds) {
            0..=1 => Vec::new(),
            2..=8 => self.pieces_derived_anew(random),
            9..=10 => vec![self.piece_copied(random)],
            11 => self.piece_removed(random),
            12..=14 => self.loose_edits(random),
            15 => self.whole_text(random),
            16..=17 => self.tokens_replaced_by_themselves(random),
            18..=19 => vec![self.to_another_text(random)],
            20..=29 => self.near_the_limit(random),
            _ => self.before_and_behind(random),
        };
        while random.chance(25) && !edits.is_empty() {
            split_edit(&mut edits, random);
        }
        while random.chance(20) {
            self.add_nothing(&mut edits, random);
        }
        edits
    }

    fn tokens(&self) -> usize {
        self.old.token_nodes.len()
    }

    fn text(&self) -> Vec<u32> {
        self.old.token_nodes.iter().map(|&node| self.old.nodes[node].kind).collect()
    }

    /// A short text of the nonterminal of an old node, or the token itself.
    fn derived_for(&self, node: usize, random: &mut Random) -> Vec<u32> {
        let node = &self.old.nodes[node];
        if node.is_token() {
            return vec![node.kind];
        }
        let left = self.sheet.productions[node.production() as usize].left;
        let most = if self.old.nodes.len() > 1_900 { 150 } else { 30 };
        let wanted = Wanted::short(random.between(1, most));
        self.derivations.text(left, wanted, random)
    }

    /// Some pieces that do not overlap, each with another text of its nonterminal.
    fn pieces_derived_anew(&self, random: &mut Random) -> Vec<MadeEdit> {
        let count = *random.pick(&[1, 1, 1, 2, 3, 8]);
        let mut nodes: Vec<usize> = (0..count).map(|_| self.any_node(random)).collect();
        nodes.sort_by_key(|&node| (self.old.token_range(node).start, node));
        let mut edits: Vec<MadeEdit> = Vec::new();
        for node in nodes {
            let range = self.old.token_range(node);
            let end = edits.last().map_or(0, |edit| edit.place + edit.removed);
            if range.start >= end {
                let put = self.derived_for(node, random);
                edits.push(MadeEdit { place: range.start, removed: range.len(), put });
            }
        }
        edits
    }

    /// Any old node; half of the time one that may grow, if one is soon found.
    fn any_node(&self, random: &mut Random) -> usize {
        let tries: Vec<usize> = (0..8).map(|_| random.below(self.old.nodes.len())).collect();
        let growing = tries.iter().find(|&&node| self.node_grows(node));
        *growing.filter(|_| random.chance(50)).unwrap_or(&tries[0])
    }

    /// Whether pieces of the node's nonterminal have no largest size.
    fn node_grows(&self, node: usize) -> bool {
        let node = &self.old.nodes[node];
        let left = || self.sheet.productions[node.production() as usize].left;
        !node.is_token() && self.derivations.grows(left())
    }

    /// A piece's tokens put in once more before or behind it.
    fn piece_copied(&self, random: &mut Random) -> MadeEdit {
        let range = self.old.token_range(random.below(self.old.nodes.len()));
        let place = if random.chance(50) { range.start } else { range.end };
        MadeEdit { place, removed: 0, put: self.text()[range].to_vec() }
    }

    /// A piece's tokens put in so often beside it that about 2,048 nodes result; at times something
    /// wrong behind, so that the reading ends while much is held.
    fn near_the_limit(&self, random: &mut Random) -> Vec<MadeEdit> {
        let tries: Vec<usize> = (0..4).map(|_| self.any_node(random)).collect();
        let node = tries.into_iter().min_by_key(|&node| self.old.nodes[node].size).unwrap_or(0);
        let range = self.old.token_range(node);
        let tokens = self.text()[range.clone()].to_vec();
        let wanted = (2_046 + random.below(8)).saturating_sub(self.old.nodes.len());
        let least = if random.chance(50) { 2 } else { self.old.nodes[node].size as usize };
        let times = (wanted / least.max(1)).min(1_500 / tokens.len().max(1));
        let place = if random.chance(50) { range.start } else { range.end };
        let mut edits = vec![MadeEdit { place, removed: 0, put: tokens.repeat(times) }];
        if random.chance(40) {
            let place = random.between(place, self.tokens());
            let code = random.below(self.sheet.terminals).max(1) as u32;
            let removed = random.below(2).min(self.tokens() - place);
            edits.push(MadeEdit {
                place,
                removed,
                put: vec![code; self.sheet.terminals.min(2) - 1],
            });
        }
        edits
    }

    /// Some tokens before the text and a wrong one at its end: what is between stands whole, and the
    /// reading ends while all of it is held.
    fn before_and_behind(&self, random: &mut Random) -> Vec<MadeEdit> {
        let text = self.text();
        let part = random.between(1, 3).min(text.len());
        let wanted = 2_049usize.saturating_sub(self.old.nodes.len()) + random.below(4);
        let before = text[..part].repeat(wanted.min(100) / part.max(1) + 1);
        let removed = random.below(2).min(text.len());
        let code = random.below(self.sheet.terminals).max(1) as u32;
        let put = vec![code; self.sheet.terminals.min(2) - 1];
        vec![
            MadeEdit { place: 0, removed: 0, put: before },
            MadeEdit { place: text.len() - removed, removed, put },
        ]
    }

    fn piece_removed(&self, random: &mut Random) -> Vec<MadeEdit> {
        let range = self.old.token_range(random.below(self.old.nodes.len()));
        vec![MadeEdit { place: range.start, removed: range.len(), put: Vec::new() }]
    }

    /// Edits that know nothing of the grammar.
    fn loose_edits(&self, random: &mut Random) -> Vec<MadeEdit> {
        let mut edits = Vec::new();
        let mut end = 0;
        for _ in 0..random.between(1, 5) {
            let place = random.between(end, self.tokens());
            let removed = random.between(0, 2).min(self.tokens() - place);
            let count = random.between(0, 3);
            let put = (0..count).map(|_| random.below(self.sheet.terminals) as u32);
            let put = put.filter(|&code| code != 0).collect();
            end = place + removed;
            edits.push(MadeEdit { place, removed, put });
        }
        edits
    }

    /// The whole text removed, or replaced by itself or by another one.
    fn whole_text(&self, random: &mut Random) -> Vec<MadeEdit> {
        let put = match random.below(3) {
            0 => Vec::new(),
            1 => self.text(),
            _ => self.derived_for(self.old.nodes.len() - 1, random),
        };
        vec![MadeEdit { place: 0, removed: self.tokens(), put }]
    }

    fn tokens_replaced_by_themselves(&self, random: &mut Random) -> Vec<MadeEdit> {
        let text = self.text();
        let percent = *random.pick(&[2, 20, 100]);
        let chosen = (0..text.len()).filter(|_| random.chance(percent));
        chosen.map(|place| MadeEdit { place, removed: 1, put: vec![text[place]] }).collect()
    }

    /// One edit that leads to another text, perhaps a damaged one of this text.
    fn to_another_text(&self, random: &mut Random) -> MadeEdit {
        let text = self.text();
        let mut other = match random.chance(50) {
            true => text.clone(),
            false => self.derived_for(self.old.nodes.len() - 1, random),
        };
        if random.chance(70) {
            damage_text(&mut other, self.sheet.terminals, random);
        }
        let same = |(one, two): &(&u32, &u32)| one == two;
        let before = text.iter().zip(&other).take_while(same).count();
        let most = text.len().min(other.len()) - before;
        let behind = text.iter().rev().zip(other.iter().rev()).take(most).take_while(same).count();
        let put = other[before..other.len() - behind].to_vec();
        MadeEdit { place: before, removed: text.len() - behind - before, put }
    }

    /// Adds an edit of nothing where the order allows it.
    fn add_nothing(&self, edits: &mut Vec<MadeEdit>, random: &mut Random) {
        let at = random.below(edits.len() + 1);
        let least = if at == 0 { 0 } else { edits[at - 1].place + edits[at - 1].removed };
        let most = edits.get(at).map_or(self.tokens(), |edit| edit.place);
        let place = random.between(least, most);
        edits.insert(at, MadeEdit { place, removed: 0, put: Vec::new() });
    }
}

/// Makes two edits of one that follow one another and do the same.
fn split_edit(edits: &mut Vec<MadeEdit>, random: &mut Random) {
    let at = random.below(edits.len());
    let edit = &mut edits[at];
    let removed = random.between(0, edit.removed);
    let put = edit.put.split_off(random.between(0, edit.put.len()));
    let rest = MadeEdit { place: edit.place + removed, removed: edit.removed - removed, put };
    edit.removed = removed;
    edits.insert(at + 1, rest);
}

/// The words of a list of edits; codes beyond what a case may carry are cut off.
pub fn words_of(edits: &[MadeEdit]) -> EditWords {
    let word = |edit: &MadeEdit| [edit.place as u32, edit.removed as u32, edit.put.len() as u32];
    let mut put: Vec<u32> = edits.iter().flat_map(|edit| edit.put.iter().copied()).collect();
    put.truncate(MOST_CODES - 20);
    EditWords { words: edits.iter().flat_map(word).collect(), put }
}

/// Breaks a rule of edits, most of the time.
pub fn damage_edits(edits: &mut EditWords, terminals: usize, tokens: usize, random: &mut Random) {
    let tokens = tokens as u32;
    if edits.words.is_empty() {
        edits.words.extend([tokens, 0, 0]);
    }
    let record = 3 * random.below(edits.words.len() / 3);
    match random.below(12) {
        0 => edits.words.truncate(edits.words.len() - random.between(1, 2)),
        1 => edits.words.push(random.below(3) as u32),
        2 => edits.words[record] = tokens + random.between(1, 3) as u32,
        3 => edits.words[record + 1] = tokens + 1 - edits.words[record].min(tokens),
        4 => {
            (edits.words[record], edits.words[record + 1]) = (u32::MAX, random.between(1, 3) as u32)
        }
        5 => edits.words[record + 2] = *random.pick(&[0, 1, edits.words[record + 2] + 1, u32::MAX]),
        6 => edits.words.extend([0, 0, 0]),
        7 => edits.put.push(1),
        10 => overlap(&mut edits.words, tokens, random),
        8 => {
            edits.put.pop();
        }
        9 => {
            if edits.put.is_empty() {
                edits.words.extend([tokens, 0, 1]);
                edits.put.push(1);
            }
            let at = random.below(edits.put.len());
            edits.put[at] = if random.chance(40) { 0 } else { wrong_code(terminals, random) };
        }
        _ => put_in_too_many(edits, tokens, random),
    }
}

/// An edit that ends at or behind another's end and begins before it.
fn overlap(words: &mut Vec<u32>, tokens: u32, random: &mut Random) {
    let record = 3 * random.below(words.len() / 3);
    let end = words[record] + words[record + 1];
    if end > 0 && end <= tokens {
        let place = end - random.between(1, end.min(3) as usize) as u32;
        let removed = random.between((end - place) as usize, (tokens - place) as usize) as u32;
        let last = words.len() == record + 3 || random.chance(50);
        let at = if last { words.len() } else { record + 3 };
        words.splice(at..at, [place, removed, 0]);
    }
}

/// Puts in so many tokens behind the text that about 2,048 result.
fn put_in_too_many(edits: &mut EditWords, tokens: u32, random: &mut Random) {
    let removed: u32 = edits.words.chunks_exact(3).map(|record| record[1]).sum();
    let result = (tokens - removed.min(tokens)) as usize + edits.put.len();
    let wanted = (2047 + random.below(4)).saturating_sub(result);
    let more = wanted.min(MOST_CODES.saturating_sub(edits.put.len()));
    edits.words.extend([tokens, 0, more as u32]);
    edits.put.extend(std::iter::repeat_n(1, more));
}
