//! The state conditions 1 to 7 (refusal 4), one function each. Layout and grammar rules are assumed.

use crate::grammar::First;
use crate::set::TerminalSet;
use crate::sheet::{is_nonterminal, Action, Item, Sheet, END, NONTERMINAL};

type Condition = fn(&Sheet) -> bool;

const CONDITIONS: [Condition; 7] = [
    state_0_and_production_0,
    items_are_closed,
    transitions_carry_items,
    complete_items_act,
    actions_have_items,
    transitions_into_have_items,
    chains_lead_to_items,
];

/// The numbers of the broken conditions, rising; each is tested only when asked for.
pub fn broken(sheet: &Sheet) -> impl Iterator<Item = u8> + '_ {
    (1..=7u8).filter(|&number| !CONDITIONS[number as usize - 1](sheet))
}

/// Condition 1: State 0 has (0,0,end) and only items with dot 0. Items of production 0 have the
/// set {end}; (0,0) is in no other state.
fn state_0_and_production_0(sheet: &Sheet) -> bool {
    let begins = sheet.lookaheads(0, 0, 0).holds(END);
    let dots_are_0 = sheet.items(0).iter().all(|item| item.dot == 0);
    begins && dots_are_0 && sheet.state_numbers().all(|state| production_0_is_right(sheet, state))
}

fn production_0_is_right(sheet: &Sheet, state: u8) -> bool {
    let mut items = sheet.items(state).iter().filter(|item| item.production == 0);
    items.all(|item| item.set == TerminalSet::one(END) && (item.dot > 0 || state == 0))
}

/// Condition 2: If (p,d,a) is in s with nonterminal B after the dot, then for each production q of
/// B and each terminal b in FIRST of what follows B and then a, (q,0,b) is in s.
fn items_are_closed(sheet: &Sheet) -> bool {
    let first = First::of(&sheet.productions);
    sheet.state_numbers().all(|state| state_is_closed(sheet, state, &first))
}

fn state_is_closed(sheet: &Sheet, state: u8, first: &First) -> bool {
    let mut asked = [TerminalSet::EMPTY; 64];
    let mut there = [TerminalSet::EMPTY; 200];
    for item in sheet.items(state) {
        if item.dot == 0 {
            there[item.production as usize] = item.set;
        }
        if let Some(nonterminal) = nonterminal_after(sheet, item) {
            let right_side = sheet.productions[item.production as usize].right_side();
            let follows = first.of_string_then(&right_side[item.dot as usize + 1..], item.set);
            let slot = &mut asked[nonterminal as usize];
            *slot = slot.join(follows);
        }
    }
    let mut pairs = sheet.productions.iter().zip(there);
    pairs.all(|(production, set)| asked[production.left as usize].within(set))
}

fn nonterminal_after(sheet: &Sheet, item: &Item) -> Option<u8> {
    let symbol = sheet.after_dot(item)?;
    is_nonterminal(symbol).then(|| symbol - NONTERMINAL)
}

/// Condition 3: If (p,d,a) is in s with X after the dot, s has a transition on X, and its target
/// has (p,d+1,a).
fn transitions_carry_items(sheet: &Sheet) -> bool {
    all_items(sheet).all(|(state, item)| match sheet.after_dot(item) {
        None => true,
        Some(symbol) => sheet.transition(state, symbol).is_some_and(|target| {
            item.set.within(sheet.lookaheads(target, item.production, item.dot + 1))
        }),
    })
}

/// Condition 4: If (p,length,a) is in s: action(s,a) is reduce p, or for p = 0 accept.
fn complete_items_act(sheet: &Sheet) -> bool {
    all_items(sheet).all(|(state, item)| {
        let wanted = match item.production {
            0 => Action::Accept,
            production => Action::Reduce(production),
        };
        sheet.after_dot(item).is_some()
            || item.set.terminals().all(|terminal| sheet.action(state, terminal) == wanted)
    })
}

/// Condition 5: A transition on X stands only where an item has X after the dot; reduce p on a only
/// where (p,length,a) is in s; accept only on end where (0,1) is.
fn actions_have_items(sheet: &Sheet) -> bool {
    sheet.state_numbers().all(|state| state_actions_have_items(sheet, state))
}

fn state_actions_have_items(sheet: &Sheet, state: u8) -> bool {
    let mut after = [false; 256];
    let mut complete = [TerminalSet::EMPTY; 200];
    for item in sheet.items(state) {
        match sheet.after_dot(item) {
            Some(symbol) => after[symbol as usize] = true,
            None => complete[item.production as usize] = item.set,
        }
    }
    let mut nonterminals = 0..sheet.nonterminals as u8;
    let gotos_stand = nonterminals.all(|nonterminal| {
        sheet.goto(state, nonterminal).is_none() || after[(NONTERMINAL + nonterminal) as usize]
    });
    let mut terminals = 0..sheet.terminals as u8;
    gotos_stand
        && terminals.all(|terminal| match sheet.action(state, terminal) {
            Action::Error => true,
            Action::Shift(_) => after[terminal as usize],
            Action::Reduce(production) => complete[production as usize].holds(terminal),
            Action::Accept => terminal == END && !complete[0].is_empty(),
        })
}

/// Condition 6: If (p,d) with d > 0 is in t, every transition into t is on the symbol before the
/// dot, from a state with (p,d-1), lookahead aside.
fn transitions_into_have_items(sheet: &Sheet) -> bool {
    sheet.state_numbers().all(|state| {
        sheet.symbols().all(|symbol| match sheet.transition(state, symbol) {
            None => true,
            Some(target) => transition_is_from_items(sheet, state, symbol, target),
        })
    })
}

fn transition_is_from_items(sheet: &Sheet, state: u8, symbol: u8, target: u8) -> bool {
    let mut moved = sheet.items(target).iter().filter(|item| item.dot > 0);
    moved.all(|item| {
        let before = item.dot - 1;
        sheet.productions[item.production as usize].after(before) == Some(symbol)
            && !sheet.lookaheads(state, item.production, before).is_empty()
    })
}

/// Condition 7: An item (p,0) with p > 0 stands only in a state where a chain of the state's own
/// items leads to it: the first is (0,0) or has a dot above 0, and each next one is some (q,0)
/// whose left side is after the dot of the one before.
fn chains_lead_to_items(sheet: &Sheet) -> bool {
    sheet.state_numbers().all(|state| chains_lead_in(sheet, state))
}

fn chains_lead_in(sheet: &Sheet, state: u8) -> bool {
    let begins = |item: &Item| item.dot > 0 || item.production == 0;
    let left = |item: &Item| sheet.productions[item.production as usize].left;
    let items = sheet.items(state);
    // The nonterminals after the dot of some item that a chain has reached.
    let mut led_to = 0u64;
    loop {
        let before = led_to;
        for item in items {
            if begins(item) || led_to >> left(item) & 1 == 1 {
                led_to |= nonterminal_after(sheet, item).map_or(0, |nonterminal| 1 << nonterminal);
            }
        }
        if led_to == before {
            break;
        }
    }
    items.iter().all(|item| begins(item) || led_to >> left(item) & 1 == 1)
}

fn all_items(sheet: &Sheet) -> impl Iterator<Item = (u8, &Item)> {
    sheet.state_numbers().flat_map(|state| sheet.items(state).iter().map(move |item| (state, item)))
}
