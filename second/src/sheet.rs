//! The table sheet: its bytes taken apart, with layout and range judged (refusal 2) and nothing else.

use crate::set::TerminalSet;

/// The end mark.
pub const END: u8 = 0;
/// A symbol at or above this is a nonterminal's number plus this.
pub const NONTERMINAL: u8 = 128;

const MOST_SYMBOLS: usize = 8;
const MOST_ITEMS: usize = 2400;
const NO_GOTO: u8 = 255;

/// A production: one row of eight symbols, of which the first `length` are used.
#[derive(Clone, Copy, PartialEq, Eq, Debug)]
pub struct Production {
    pub left: u8,
    pub length: u8,
    pub symbols: [u8; MOST_SYMBOLS],
}

impl Production {
    pub fn right_side(&self) -> &[u8] {
        &self.symbols[..self.length as usize]
    }

    /// The symbol after the dot, if the dot is not at the end.
    pub fn after(&self, dot: u8) -> Option<u8> {
        self.right_side().get(dot as usize).copied()
    }
}

#[derive(Clone, Copy, PartialEq, Eq, Debug)]
pub struct Item {
    pub production: u8,
    pub dot: u8,
    pub set: TerminalSet,
}

#[derive(Clone, Copy, PartialEq, Eq, Debug)]
pub enum Action {
    Error,
    Accept,
    Shift(u8),
    Reduce(u8),
}

/// A sheet whose layout and ranges are right.
#[derive(Clone, Debug)]
pub struct Sheet {
    pub terminals: usize,
    pub nonterminals: usize,
    pub states: usize,
    pub productions: Vec<Production>,
    actions: Vec<Action>,
    gotos: Vec<u8>,
    items: Vec<Item>,
    /// Where each state's items begin, and at last where all end.
    item_starts: Vec<usize>,
}

impl Sheet {
    pub fn action(&self, state: u8, terminal: u8) -> Action {
        self.actions[state as usize * self.terminals + terminal as usize]
    }

    pub fn goto(&self, state: u8, nonterminal: u8) -> Option<u8> {
        let target = self.gotos[state as usize * self.nonterminals + nonterminal as usize];
        (target != NO_GOTO).then_some(target)
    }

    /// The state that a transition on the symbol leads to: a shift or a goto.
    pub fn transition(&self, state: u8, symbol: u8) -> Option<u8> {
        if is_nonterminal(symbol) {
            return self.goto(state, symbol - NONTERMINAL);
        }
        match self.action(state, symbol) {
            Action::Shift(target) => Some(target),
            _ => None,
        }
    }

    pub fn items(&self, state: u8) -> &[Item] {
        &self.items[self.item_starts[state as usize]..self.item_starts[state as usize + 1]]
    }

    /// The set of the state's item (production, dot), empty where the state has no such item.
    pub fn lookaheads(&self, state: u8, production: u8, dot: u8) -> TerminalSet {
        let items = self.items(state);
        match items.binary_search_by_key(&(production, dot), |item| (item.production, item.dot)) {
            Ok(at) => items[at].set,
            Err(_) => TerminalSet::EMPTY,
        }
    }

    pub fn after_dot(&self, item: &Item) -> Option<u8> {
        self.productions[item.production as usize].after(item.dot)
    }

    pub fn state_numbers(&self) -> impl Iterator<Item = u8> {
        0..self.states as u8
    }

    /// All symbols, terminals first.
    pub fn symbols(&self) -> impl Iterator<Item = u8> {
        let nonterminals = NONTERMINAL..NONTERMINAL + self.nonterminals as u8;
        (0..self.terminals as u8).chain(nonterminals)
    }

    /// The nonterminal that production 0 names. Grammar rules are assumed.
    pub fn start(&self) -> u8 {
        self.productions[0].symbols[0] - NONTERMINAL
    }

    /// Whether a word is the code of a token: 1..T-1.
    pub fn is_token(&self, code: u32) -> bool {
        code >= 1 && (code as usize) < self.terminals
    }
}

pub fn is_nonterminal(symbol: u8) -> bool {
    symbol >= NONTERMINAL
}

/// Takes a sheet apart; `None` where layout or range is wrong.
pub fn read_sheet(bytes: &[u8]) -> Option<Sheet> {
    let mut rest = Rest(bytes);
    if rest.take(3)? != b"LRT" || rest.word()? != 1 {
        return None;
    }
    let terminals = rest.count(1, 64)?;
    let nonterminals = rest.count(2, 64)?;
    let production_count = rest.count(2, 200)?;
    let states = rest.count(2, 200)?;
    let ranges = Ranges { terminals, nonterminals, productions: production_count, states };
    let productions = read_productions(&mut rest, &ranges)?;
    let actions = read_actions(&mut rest, &ranges)?;
    let gotos = rest.take(states * nonterminals)?.to_vec();
    if !gotos.iter().all(|&goto| goto == NO_GOTO || (goto as usize) < states) {
        return None;
    }
    let (items, item_starts) = read_items(&mut rest, &ranges, &productions)?;
    rest.0.is_empty().then_some(Sheet {
        terminals,
        nonterminals,
        states,
        productions,
        actions,
        gotos,
        items,
        item_starts,
    })
}

/// The four counts of the sheet's head.
struct Ranges {
    terminals: usize,
    nonterminals: usize,
    productions: usize,
    states: usize,
}

impl Ranges {
    fn names_symbol(&self, symbol: u8) -> bool {
        if is_nonterminal(symbol) {
            ((symbol - NONTERMINAL) as usize) < self.nonterminals
        } else {
            (symbol as usize) < self.terminals
        }
    }

    fn action(&self, word: u16) -> Option<Action> {
        let low = (word & 255) as u8;
        match word >> 8 {
            0 if low == 0 => Some(Action::Error),
            0 if low == 1 => Some(Action::Accept),
            1 if (low as usize) < self.states => Some(Action::Shift(low)),
            2 if (low as usize) < self.productions => Some(Action::Reduce(low)),
            _ => None,
        }
    }
}

fn read_productions(rest: &mut Rest, ranges: &Ranges) -> Option<Vec<Production>> {
    let rows = rest.take(ranges.productions * 10)?.chunks_exact(10);
    rows.map(|row| read_production(row, ranges)).collect()
}

fn read_production(row: &[u8], ranges: &Ranges) -> Option<Production> {
    let (left, length) = (row[0], row[1]);
    if left as usize >= ranges.nonterminals || length as usize > MOST_SYMBOLS {
        return None;
    }
    let (used, unused) = row[2..].split_at(length as usize);
    let right = used.iter().all(|&symbol| ranges.names_symbol(symbol));
    if !right || unused.iter().any(|&symbol| symbol != 0) {
        return None;
    }
    let symbols = row[2..].try_into().ok()?;
    Some(Production { left, length, symbols })
}

fn read_actions(rest: &mut Rest, ranges: &Ranges) -> Option<Vec<Action>> {
    let words = rest.take(ranges.states * ranges.terminals * 2)?.chunks_exact(2);
    words.map(|word| ranges.action(u16::from_be_bytes([word[0], word[1]]))).collect()
}

fn read_items(
    rest: &mut Rest,
    ranges: &Ranges,
    productions: &[Production],
) -> Option<(Vec<Item>, Vec<usize>)> {
    let mut items = Vec::new();
    let mut starts = vec![0];
    for _ in 0..ranges.states {
        let count = rest.word()? as usize;
        if count == 0 || items.len() + count > MOST_ITEMS {
            return None;
        }
        for row in rest.take(count * 10)?.chunks_exact(10) {
            items.push(read_item(row, ranges, productions)?);
        }
        if !rising(&items[starts[starts.len() - 1]..]) {
            return None;
        }
        starts.push(items.len());
    }
    Some((items, starts))
}

fn read_item(row: &[u8], ranges: &Ranges, productions: &[Production]) -> Option<Item> {
    let (production, dot) = (row[0], row[1]);
    let set = TerminalSet(u64::from_be_bytes(row[2..].try_into().ok()?));
    let length = productions.get(production as usize)?.length;
    let right = dot <= length && !set.is_empty() && set.below(ranges.terminals);
    right.then_some(Item { production, dot, set })
}

fn rising(items: &[Item]) -> bool {
    items
        .windows(2)
        .all(|pair| (pair[0].production, pair[0].dot) < (pair[1].production, pair[1].dot))
}

/// The bytes not yet taken.
struct Rest<'a>(&'a [u8]);

impl<'a> Rest<'a> {
    fn take(&mut self, count: usize) -> Option<&'a [u8]> {
        if count > self.0.len() {
            return None;
        }
        let (taken, rest) = self.0.split_at(count);
        self.0 = rest;
        Some(taken)
    }

    fn word(&mut self) -> Option<u16> {
        let bytes = self.take(2)?;
        Some(u16::from_be_bytes([bytes[0], bytes[1]]))
    }

    /// One byte that has to be within the two bounds.
    fn count(&mut self, least: u8, most: u8) -> Option<usize> {
        let byte = self.take(1)?[0];
        (least <= byte && byte <= most).then_some(byte as usize)
    }
}
