//! The grammar rules (refusal 3), and FIRST of what stands after each dot.

use crate::set::TerminalSet;
use crate::sheet::{is_nonterminal, Production, Sheet, END, NONTERMINAL};

/// Whether the sheet keeps all grammar rules.
pub fn rules_hold(sheet: &Sheet) -> bool {
    let productions = &sheet.productions;
    production_0_names_the_start(&productions[0])
        && productions[1..].iter().all(|production| production.left != 0)
        && right_sides_are_free_of_end_and_top(productions)
        && every_nonterminal_derives(productions, sheet.nonterminals)
}

fn production_0_names_the_start(production: &Production) -> bool {
    production.left == 0 && production.length == 1 && is_nonterminal(production.symbols[0])
}

fn right_sides_are_free_of_end_and_top(productions: &[Production]) -> bool {
    let mut symbols = productions.iter().flat_map(|production| production.right_side());
    symbols.all(|&symbol| symbol != END && symbol != NONTERMINAL)
}

/// Whether every nonterminal derives some string of terminals, perhaps empty.
fn every_nonterminal_derives(productions: &[Production], nonterminals: usize) -> bool {
    let derives = closed(productions, |symbol, derives| {
        !is_nonterminal(symbol) || derives >> (symbol - NONTERMINAL) & 1 == 1
    });
    derives.count_ones() as usize == nonterminals
}

/// The least set of nonterminals that has each left side whose right side's symbols all pass the test.
fn closed(productions: &[Production], passes: impl Fn(u8, u64) -> bool) -> u64 {
    let mut found = 0u64;
    loop {
        let before = found;
        for production in productions {
            if production.right_side().iter().all(|&symbol| passes(symbol, found)) {
                found |= 1 << production.left;
            }
        }
        if found == before {
            return found;
        }
    }
}

/// FIRST of each nonterminal, and which of them derive the empty string.
pub struct First {
    sets: [TerminalSet; 64],
    empty: u64,
}

impl First {
    pub fn of(productions: &[Production]) -> First {
        let empty = closed(productions, |symbol, empty| {
            is_nonterminal(symbol) && empty >> (symbol - NONTERMINAL) & 1 == 1
        });
        let mut first = First { sets: [TerminalSet::EMPTY; 64], empty };
        while first.widen(productions) {}
        first
    }

    /// One round over the productions; whether a set became larger.
    fn widen(&mut self, productions: &[Production]) -> bool {
        let mut wider = false;
        for production in productions {
            let old = self.sets[production.left as usize];
            let new = old.join(self.of_string(production.right_side()).0);
            self.sets[production.left as usize] = new;
            wider |= new != old;
        }
        wider
    }

    fn is_empty_for(&self, symbol: u8) -> bool {
        is_nonterminal(symbol) && self.empty >> (symbol - NONTERMINAL) & 1 == 1
    }

    fn of_symbol(&self, symbol: u8) -> TerminalSet {
        if is_nonterminal(symbol) {
            self.sets[(symbol - NONTERMINAL) as usize]
        } else {
            TerminalSet::one(symbol)
        }
    }

    /// FIRST of a string of symbols, and whether it derives the empty string.
    pub fn of_string(&self, symbols: &[u8]) -> (TerminalSet, bool) {
        let mut set = TerminalSet::EMPTY;
        for &symbol in symbols {
            set = set.join(self.of_symbol(symbol));
            if !self.is_empty_for(symbol) {
                return (set, false);
            }
        }
        (set, true)
    }

    /// The union, over the terminals a of `lookaheads`, of FIRST of the symbols and then a.
    pub fn of_string_then(&self, symbols: &[u8], lookaheads: TerminalSet) -> TerminalSet {
        match self.of_string(symbols) {
            (set, true) => set.join(lookaheads),
            (set, false) => set,
        }
    }
}
