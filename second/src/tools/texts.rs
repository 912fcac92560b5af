//! Texts of tokens: derived from a nonterminal near a wanted number of nodes, and damaged ones.

use crate::sheet::{is_nonterminal, Production, Sheet, NONTERMINAL};
use crate::tools::case::MOST_CODES;
use crate::tools::random::Random;
use crate::tree::PRODUCTION;

/// More nodes than any text needs; stands for sizes too large to derive.
const HUGE: usize = 100_000;

/// What deriving needs to know of a sheet that is accepted.
pub struct Derivations<'a> {
    sheet: &'a Sheet,
    /// The fewest nodes of a piece of each nonterminal.
    least: Vec<usize>,
    /// The nonterminals whose pieces have no largest size.
    grows: u64,
}

/// What is still to be derived: a symbol with the nodes it may have, or the parent of what was derived
/// since so many records.
enum Open {
    Symbol(u8, usize),
    Parent(usize, usize),
}

/// Which child gets the nodes that are to spare.
#[derive(Clone, Copy, PartialEq, Eq, Debug)]
pub enum Spare {
    First,
    Last,
    Any,
    Shared,
}

/// How large a derived piece is to be, as far as the grammar lets it.
#[derive(Clone, Copy, PartialEq, Eq, Debug)]
pub struct Wanted {
    pub nodes: usize,
    pub spare: Spare,
    /// How many of a hundred choices take a growing production where one fits.
    pub eager: usize,
}

impl Wanted {
    pub fn short(nodes: usize) -> Wanted {
        Wanted { nodes, spare: Spare::Shared, eager: 70 }
    }
}

impl<'a> Derivations<'a> {
    pub fn of(sheet: &'a Sheet) -> Derivations<'a> {
        let mut derivations =
            Derivations { sheet, least: vec![HUGE; sheet.nonterminals], grows: 0 };
        derivations.find_least();
        derivations.grows = growing(sheet);
        derivations
    }

    fn find_least(&mut self) {
        loop {
            let mut changed = false;
            for rule in &self.sheet.productions {
                let size = self.least_of(rule);
                if size < self.least[rule.left as usize] {
                    self.least[rule.left as usize] = size;
                    changed = true;
                }
            }
            if !changed {
                return;
            }
        }
    }

    /// The fewest nodes of a piece by a production, its own node included.
    fn least_of(&self, rule: &Production) -> usize {
        let sizes = rule.right_side().iter().map(|&symbol| self.least_of_symbol(symbol));
        (1 + sizes.sum::<usize>()).min(HUGE)
    }

    fn least_of_symbol(&self, symbol: u8) -> usize {
        match is_nonterminal(symbol) {
            true => self.least[(symbol - NONTERMINAL) as usize],
            false => 1,
        }
    }

    fn symbol_grows(&self, symbol: u8) -> bool {
        is_nonterminal(symbol) && self.grows >> (symbol - NONTERMINAL) & 1 == 1
    }

    /// Tokens of a piece of the nonterminal, of about so many nodes where it can be so large.
    pub fn text(&self, nonterminal: u8, wanted: Wanted, random: &mut Random) -> Vec<u32> {
        let (records, _) = self.records(nonterminal, wanted, random);
        records.into_iter().map(|(kind, _)| kind).filter(|&kind| kind < PRODUCTION).collect()
    }

    /// Kinds and sizes of such a piece in written order, and whether it is whole: one with too many
    /// tokens breaks off.
    pub fn records(
        &self,
        nonterminal: u8,
        wanted: Wanted,
        random: &mut Random,
    ) -> (Vec<(u32, u32)>, bool) {
        let (mut records, mut tokens) = (Vec::new(), 0);
        let mut open = vec![Open::Symbol(NONTERMINAL + nonterminal, wanted.nodes)];
        while let Some(next) = open.pop() {
            match next {
                Open::Symbol(symbol, nodes) if is_nonterminal(symbol) => {
                    let chosen = self.choose(symbol - NONTERMINAL, nodes, wanted.eager, random);
                    let rule = &self.sheet.productions[chosen];
                    let parts = self.shares(rule, nodes, wanted.spare, random);
                    open.push(Open::Parent(chosen, records.len()));
                    let children = rule.right_side().iter().copied().zip(parts).rev();
                    open.extend(children.map(|(symbol, nodes)| Open::Symbol(symbol, nodes)));
                }
                Open::Symbol(terminal, _) => {
                    records.push((terminal as u32, 1));
                    tokens += 1;
                }
                Open::Parent(production, begin) => {
                    let size = (records.len() + 1 - begin) as u32;
                    records.push((PRODUCTION + production as u32, size));
                }
            }
            if tokens >= MOST_CODES - 50 || open.len() > HUGE {
                return (records, false);
            }
        }
        (records, true)
    }

    /// Whether pieces of the nonterminal have no largest size.
    pub fn grows(&self, nonterminal: u8) -> bool {
        self.symbol_grows(NONTERMINAL + nonterminal)
    }

    /// A production that fits in so many nodes, mostly a growing one; else the smallest.
    fn choose(&self, nonterminal: u8, nodes: usize, eager: usize, random: &mut Random) -> usize {
        let of_it = |number: &usize| self.sheet.productions[*number].left == nonterminal;
        let numbers: Vec<usize> = (0..self.sheet.productions.len()).filter(of_it).collect();
        let least = |number: usize| self.least_of(&self.sheet.productions[number]);
        let fit: Vec<usize> = numbers.iter().copied().filter(|&n| least(n) <= nodes).collect();
        let grow: Vec<usize> = fit.iter().copied().filter(|&n| self.rule_grows(n)).collect();
        if !grow.is_empty() && random.chance(eager) {
            *random.pick(&grow)
        } else if !fit.is_empty() {
            *random.pick(&fit)
        } else {
            numbers.into_iter().min_by_key(|&number| least(number)).unwrap_or(0)
        }
    }

    fn rule_grows(&self, production: usize) -> bool {
        let right_side = self.sheet.productions[production].right_side();
        right_side.iter().any(|&symbol| self.symbol_grows(symbol))
    }

    /// How many nodes each symbol of the production's right side may have.
    fn shares(
        &self,
        rule: &Production,
        nodes: usize,
        spare: Spare,
        random: &mut Random,
    ) -> Vec<usize> {
        let symbols = rule.right_side();
        let mut parts: Vec<usize> = symbols.iter().map(|&s| self.least_of_symbol(s)).collect();
        let to_spare = nodes.saturating_sub(self.least_of(rule));
        for (part, _) in parts.iter_mut().zip(symbols).filter(|(_, &s)| !self.symbol_grows(s)) {
            *part += to_spare.min(12);
        }
        let growing: Vec<usize> =
            (0..symbols.len()).filter(|&at| self.symbol_grows(symbols[at])).collect();
        if growing.is_empty() {
            return parts;
        }
        match spare {
            Spare::First => parts[growing[0]] += to_spare,
            Spare::Last => parts[growing[growing.len() - 1]] += to_spare,
            Spare::Any => parts[*random.pick(&growing)] += to_spare,
            Spare::Shared => {
                let cut = random.between(0, to_spare);
                parts[*random.pick(&growing)] += cut;
                parts[*random.pick(&growing)] += to_spare - cut;
            }
        }
        parts
    }
}

/// The nonterminals that lead to one that leads to itself.
fn growing(sheet: &Sheet) -> u64 {
    let leads = leads_of(sheet);
    let set_of = |test: &dyn Fn(usize) -> bool| {
        (0..leads.len()).filter(|&n| test(n)).fold(0u64, |set, n| set | 1 << n)
    };
    let to_itself = set_of(&|n| leads[n] >> n & 1 == 1);
    set_of(&|n| (leads[n] | 1 << n) & to_itself != 0)
}

/// For each nonterminal the set of those that its derivations come to.
fn leads_of(sheet: &Sheet) -> Vec<u64> {
    let mut leads = vec![0u64; sheet.nonterminals];
    loop {
        let before = leads.clone();
        for rule in &sheet.productions {
            for symbol in rule.right_side().iter().filter(|&&symbol| is_nonterminal(symbol)) {
                let below = (symbol - NONTERMINAL) as usize;
                leads[rule.left as usize] |= 1 << below | before[below];
            }
        }
        if leads == before {
            return leads;
        }
    }
}

/// Changes some tokens of a text: replaced, left out, put in, exchanged, or cut off behind.
pub fn damage_text(text: &mut Vec<u32>, terminals: usize, random: &mut Random) {
    for _ in 0..random.between(1, 3) {
        let at = random.below(text.len() + 1);
        let code = random.below(terminals).max(1) as u32;
        match random.below(6) {
            0 if at < text.len() => text[at] = code,
            1 if at < text.len() => {
                text.remove(at);
            }
            2 if at + 1 < text.len() => text.swap(at, at + 1),
            3 => text.truncate(at),
            _ => text.insert(at, code),
        }
    }
}

/// Gives one token a code that is none.
pub fn damage_code(codes: &mut Vec<u32>, terminals: usize, random: &mut Random) {
    let wrong = wrong_code(terminals, random);
    let at = random.below(codes.len() + 1);
    if at < codes.len() {
        codes[at] = wrong;
    } else {
        codes.push(wrong);
    }
}

/// A code that no token of so many terminals has.
pub fn wrong_code(terminals: usize, random: &mut Random) -> u32 {
    *random.pick(&[0, terminals as u32, 255, 256, 257, 65_536 + 1, u32::MAX])
}
