//! A table in the making: items and transitions by state, and the bytes of its sheet.

use std::collections::BTreeMap;

use crate::set::TerminalSet;
use crate::sheet::{is_nonterminal, Production, Sheet, END, NONTERMINAL};

pub type Items = BTreeMap<(u8, u8), TerminalSet>;

#[derive(Clone, PartialEq, Eq, Debug)]
pub struct Grammar {
    pub terminals: usize,
    pub nonterminals: usize,
    pub productions: Vec<Production>,
}

impl Grammar {
    pub fn after(&self, (production, dot): (u8, u8)) -> Option<u8> {
        self.productions[production as usize].after(dot)
    }

    /// The productions of a nonterminal.
    pub fn productions_of(&self, nonterminal: u8) -> impl Iterator<Item = u8> + '_ {
        let numbered = self.productions.iter().enumerate();
        numbered.filter(move |(_, rule)| rule.left == nonterminal).map(|(at, _)| at as u8)
    }
}

/// A production from its left side and its right side of at most eight symbols.
pub fn production(left: u8, right_side: &[u8]) -> Production {
    let mut symbols = [0; 8];
    symbols[..right_side.len()].copy_from_slice(right_side);
    Production { left, length: right_side.len() as u8, symbols }
}

#[derive(Clone, PartialEq, Eq, Debug, Default)]
pub struct State {
    pub items: Items,
    /// The target of each symbol's transition.
    pub transitions: BTreeMap<u8, usize>,
}

#[derive(Clone, PartialEq, Eq, Debug)]
pub struct Plan {
    pub grammar: Grammar,
    pub states: Vec<State>,
}

/// The action words of a state, by terminal.
pub type ActionRow = Vec<u16>;

impl Plan {
    pub fn of_sheet(sheet: &Sheet) -> Plan {
        let state_of = |number: u8| {
            let items = sheet.items(number).iter();
            let items = items.map(|item| ((item.production, item.dot), item.set)).collect();
            let transitions = sheet.symbols().filter_map(|symbol| {
                sheet.transition(number, symbol).map(|target| (symbol, target as usize))
            });
            State { items, transitions: transitions.collect() }
        };
        Plan {
            grammar: Grammar {
                terminals: sheet.terminals,
                nonterminals: sheet.nonterminals,
                productions: sheet.productions.clone(),
            },
            states: sheet.state_numbers().map(state_of).collect(),
        }
    }

    pub fn item_count(&self) -> usize {
        self.states.iter().map(|state| state.items.len()).sum()
    }

    /// Whether counts are within what a sheet can say.
    pub fn fits(&self) -> bool {
        (2..=200).contains(&self.states.len())
            && self.grammar.productions.len() <= 200
            && self.item_count() <= 2400
    }

    /// The actions that items and transitions call for; `None` where two of them meet.
    pub fn actions(&self) -> Option<Vec<ActionRow>> {
        self.states.iter().map(|state| self.actions_of(state)).collect()
    }

    fn actions_of(&self, state: &State) -> Option<ActionRow> {
        let mut row = vec![0u16; self.grammar.terminals];
        for (&symbol, &target) in state.transitions.iter().filter(|(s, _)| !is_nonterminal(**s)) {
            row[symbol as usize] = 256 + target as u16;
        }
        for (&item, set) in &state.items {
            if self.grammar.after(item).is_some() {
                continue;
            }
            for terminal in set.terminals() {
                let slot = row.get_mut(terminal as usize).filter(|slot| **slot == 0)?;
                *slot = if item.0 == 0 { 1 } else { 512 + item.0 as u16 };
            }
        }
        Some(row)
    }

    /// The sheet with actions worked out; `None` where they conflict or the table is too large.
    pub fn bytes(&self) -> Option<Vec<u8>> {
        let actions = self.actions()?;
        self.fits().then(|| self.bytes_with(&actions))
    }

    /// The sheet with the actions given, right or wrong.
    pub fn bytes_with(&self, actions: &[ActionRow]) -> Vec<u8> {
        let grammar = &self.grammar;
        let mut bytes = b"LRT\x00\x01".to_vec();
        let counts =
            [grammar.terminals, grammar.nonterminals, grammar.productions.len(), self.states.len()];
        bytes.extend(counts.map(|count| count as u8));
        for rule in &grammar.productions {
            bytes.extend([rule.left, rule.length]);
            bytes.extend(rule.symbols);
        }
        bytes.extend(actions.iter().flatten().flat_map(|word| word.to_be_bytes()));
        for state in &self.states {
            bytes.extend(self.gotos_of(state));
        }
        for state in &self.states {
            push_items(&mut bytes, &state.items);
        }
        bytes
    }

    fn gotos_of(&self, state: &State) -> impl Iterator<Item = u8> {
        let mut row = vec![255; self.grammar.nonterminals];
        for (&symbol, &target) in state.transitions.iter().filter(|(s, _)| is_nonterminal(**s)) {
            row[(symbol - NONTERMINAL) as usize] = target as u8;
        }
        row.into_iter()
    }
}

fn push_items(bytes: &mut Vec<u8>, items: &Items) {
    bytes.extend((items.len() as u16).to_be_bytes());
    for (&(production, dot), set) in items {
        bytes.extend([production, dot]);
        bytes.extend(set.0.to_be_bytes());
    }
}

/// The items that every table begins with: (0,0,end).
pub fn beginning() -> Items {
    Items::from([((0, 0), TerminalSet::one(END))])
}
