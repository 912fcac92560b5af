//! What is wrong with a refused table, tree or list of edits: every fault at once, as a set of bits, so
//! that it can be told where one stands alone. It judges nothing; the library does.

use crate::sheet::{is_nonterminal, Sheet, END, NONTERMINAL};
use crate::tools::grammars::derives_all;
use crate::tools::plan::Plan;

/// The faults of one kind, bit k for the name at k.
pub struct Faults {
    pub names: &'static [&'static str],
    pub found: u64,
}

impl Faults {
    fn none(names: &'static [&'static str]) -> Faults {
        Faults { names, found: 0 }
    }

    fn note(&mut self, name: &str, is_wrong: bool) {
        let at = self.names.iter().position(|&known| known == name).expect("a known name");
        self.found |= u64::from(is_wrong) << at;
    }

    /// Each name, and whether that fault stands alone.
    pub fn alone(&self) -> impl Iterator<Item = (&'static str, bool)> + '_ {
        let found = self.found;
        self.names.iter().enumerate().map(move |(at, &name)| (name, found == 1 << at))
    }
}

const LAYOUT: [&str; 19] = [
    "first letters",
    "version",
    "T out of range",
    "N out of range",
    "P out of range",
    "S out of range",
    "too short",
    "too long",
    "left side out of range",
    "length above 8",
    "used symbol out of range",
    "unused symbol not 0",
    "action word out of range",
    "goto out of range",
    "state without items",
    "above 2,400 items",
    "item's production or dot out of range",
    "lookahead set empty or out of range",
    "items not rising",
];

/// The faults of layout and range. Behind a wrong count what follows is looked at as it stands.
pub fn layout_faults(bytes: &[u8]) -> Faults {
    let mut faults = Faults::none(&LAYOUT);
    let Some((head, mut rest)) = bytes.split_at_checked(9) else {
        faults.note("too short", true);
        return faults;
    };
    faults.note("first letters", &head[..3] != b"LRT");
    faults.note("version", head[3..5] != [0, 1]);
    let [t, n, p, s] = [head[5], head[6], head[7], head[8]].map(usize::from);
    faults.note("T out of range", !(1..=64).contains(&t));
    faults.note("N out of range", !(2..=64).contains(&n));
    faults.note("P out of range", !(2..=200).contains(&p));
    faults.note("S out of range", !(2..=200).contains(&s));
    let mut take = |count: usize| {
        let (taken, behind) = rest.split_at_checked(count)?;
        rest = behind;
        Some(taken)
    };
    let found = (|| {
        let rules = take(10 * p)?;
        rules.chunks_exact(10).for_each(|rule| production_faults(&mut faults, rule, t, n));
        for word in take(2 * s * t)?.chunks_exact(2) {
            let right = match word[0] {
                0 => word[1] < 2,
                1 => usize::from(word[1]) < s,
                2 => usize::from(word[1]) < p,
                _ => false,
            };
            faults.note("action word out of range", !right);
        }
        let gotos = take(s * n)?;
        let wrong = gotos.iter().any(|&goto| goto != 255 && usize::from(goto) >= s);
        faults.note("goto out of range", wrong);
        let mut items = 0;
        for _ in 0..s {
            let count = take(2)?;
            let count = usize::from(u16::from_be_bytes([count[0], count[1]]));
            items += count;
            faults.note("state without items", count == 0);
            faults.note("above 2,400 items", items > 2400);
            item_faults(&mut faults, take(10 * count)?, rules, t);
        }
        Some(())
    })();
    faults.note("too short", found.is_none());
    faults.note("too long", found.is_some() && !rest.is_empty());
    faults
}

fn production_faults(faults: &mut Faults, rule: &[u8], t: usize, n: usize) {
    let length = usize::from(rule[1]);
    faults.note("left side out of range", usize::from(rule[0]) >= n);
    faults.note("length above 8", length > 8);
    let (used, unused) = rule[2..].split_at(length.min(8));
    let names = |symbol: &u8| match is_nonterminal(*symbol) {
        true => usize::from(symbol - NONTERMINAL) < n,
        false => usize::from(*symbol) < t,
    };
    faults.note("used symbol out of range", !used.iter().all(names));
    faults.note("unused symbol not 0", unused.iter().any(|&symbol| symbol != 0));
}

fn item_faults(faults: &mut Faults, items: &[u8], rules: &[u8], t: usize) {
    let items: Vec<&[u8]> = items.chunks_exact(10).collect();
    for item in &items {
        let length = rules.get(10 * usize::from(item[0]) + 1);
        let right = length.is_some_and(|&length| item[1] <= length);
        faults.note("item's production or dot out of range", !right);
        let set = item[2..].iter().fold(0u64, |set, &byte| set << 8 | u64::from(byte));
        let beyond = t < 64 && set >> t != 0;
        faults.note("lookahead set empty or out of range", set == 0 || beyond);
    }
    faults.note("items not rising", items.windows(2).any(|pair| pair[0][..2] >= pair[1][..2]));
}

const GRAMMAR: [&str; 7] = [
    "production 0's left side",
    "production 0's length",
    "production 0 names a terminal",
    "nonterminal 0 has another production",
    "end mark in a right side",
    "nonterminal 0 in a right side",
    "a nonterminal derives nothing",
];

/// The grammar rules that a sheet breaks.
pub fn grammar_faults(sheet: &Sheet) -> Faults {
    let mut faults = Faults::none(&GRAMMAR);
    let (first, others) = (&sheet.productions[0], &sheet.productions[1..]);
    faults.note("production 0's left side", first.left != 0);
    faults.note("production 0's length", first.length != 1);
    let names_terminal =
        first.right_side().iter().any(|&symbol| (1..NONTERMINAL).contains(&symbol));
    faults.note("production 0 names a terminal", names_terminal);
    faults.note("nonterminal 0 has another production", others.iter().any(|rule| rule.left == 0));
    let symbols = || sheet.productions.iter().flat_map(|rule| rule.right_side());
    faults.note("end mark in a right side", symbols().any(|&symbol| symbol == END));
    faults.note("nonterminal 0 in a right side", symbols().any(|&symbol| symbol == NONTERMINAL));
    // Where production 0 has another left side, nonterminal 0 has no production: one fault, not two.
    let mut grammar = Plan::of_sheet(sheet).grammar;
    grammar.productions[0].left = 0;
    faults.note("a nonterminal derives nothing", !derives_all(&grammar));
    faults
}

const TREE: [&str; 11] = [
    "row below 2 words",
    "count 0",
    "count above 2,048",
    "row too short for its count",
    "a kind that is none",
    "children of other symbols",
    "not one root of the start symbol",
    "a size",
    "a number 0",
    "two numbers alike",
    "a number not below the next",
];

/// What is not in order in a lent tree.
pub fn tree_faults(sheet: &Sheet, row: &[u32]) -> Faults {
    let mut faults = Faults::none(&TREE);
    faults.note("row below 2 words", row.len() < 2);
    let [count, next, records @ ..] = row else {
        return faults;
    };
    let count = *count as usize;
    faults.note("count 0", count == 0);
    faults.note("count above 2,048", count > 2048);
    faults.note("row too short for its count", records.len() < 3 * count);
    let records: Vec<&[u32]> = records.chunks_exact(3).take(count).collect();
    let mut numbers: Vec<u32> = records.iter().map(|record| record[1]).collect();
    numbers.sort_unstable();
    faults.note("a number 0", numbers.contains(&0));
    faults.note("two numbers alike", numbers.windows(2).any(|pair| pair[0] == pair[1]));
    faults.note("a number not below the next", numbers.iter().any(|number| number >= next));
    shape_faults(&mut faults, sheet, &records);
    faults
}

/// Puts the pieces together by their kinds alone.
fn shape_faults(faults: &mut Faults, sheet: &Sheet, records: &[&[u32]]) {
    let mut roots: Vec<(u8, u32)> = Vec::new();
    for record in records {
        let kind = record[0] as usize;
        let (symbol, size) = if sheet.is_token(record[0]) {
            (kind as u8, 1)
        } else if kind > 256 && kind - 256 < sheet.productions.len() {
            let rule = &sheet.productions[kind - 256];
            let below = roots.len().saturating_sub(rule.length.into());
            let children = roots.split_off(below);
            let right = children.iter().map(|child| child.0).eq(rule.right_side().iter().copied());
            faults.note("children of other symbols", !right);
            (NONTERMINAL + rule.left, 1 + children.iter().map(|child| child.1).sum::<u32>())
        } else {
            faults.note("a kind that is none", true);
            return;
        };
        faults.note("a size", size != record[2]);
        roots.push((symbol, size));
    }
    let one_root = roots.len() == 1 && roots[0].0 == NONTERMINAL + sheet.start();
    faults.note("not one root of the start symbol", !records.is_empty() && !one_root);
}

const EDITS: [&str; 8] = [
    "part of a record",
    "a place below the one before and its removals",
    "beyond the text",
    "codes too few",
    "codes left over",
    "code 0",
    "a code of T or above",
    "above 2,048 tokens",
];

/// The rules that edits and inserted codes break, for an old text of so many tokens.
pub fn edit_faults(terminals: usize, tokens: usize, words: &[u32], put: &[u32]) -> Faults {
    let mut faults = Faults::none(&EDITS);
    faults.note("part of a record", words.len() % 3 != 0);
    faults.note("code 0", put.contains(&0));
    faults.note("a code of T or above", put.iter().any(|&code| code as usize >= terminals));
    let (mut end, mut removed, mut used) = (0u64, 0u64, 0u64);
    for record in words.chunks_exact(3) {
        let [place, gone, came] = [record[0], record[1], record[2]].map(u64::from);
        faults.note("a place below the one before and its removals", place < end);
        faults.note("beyond the text", place + gone > tokens as u64);
        (end, removed, used) = (place + gone, removed + gone, used + came);
    }
    faults.note("codes too few", used > put.len() as u64);
    faults.note("codes left over", used < put.len() as u64);
    let result = (tokens as u64 + put.len() as u64).saturating_sub(removed);
    faults.note("above 2,048 tokens", result > 2048);
    faults
}
