//! Damaged tables: bytes changed, cut or appended, and words, items and productions changed in place.

use crate::set::TerminalSet;
use crate::sheet::{read_sheet, NONTERMINAL};
use crate::tools::one_rule::{wrong_grammar, wrong_layout};
use crate::tools::plan::{ActionRow, Plan};
use crate::tools::random::Random;
use crate::tools::vary;

/// A table damaged in one way or another; at times it is still a right one.
pub fn spoiled_table(table: &[u8], random: &mut Random) -> Vec<u8> {
    let tries = (0..4).map(|_| spoiled_once(table, random));
    tries.into_iter().find(|spoiled| spoiled != table).unwrap_or_else(|| table.to_vec())
}

fn spoiled_once(table: &[u8], random: &mut Random) -> Vec<u8> {
    let plan = read_sheet(table).map(|sheet| Plan::of_sheet(&sheet));
    let actions = plan.as_ref().and_then(|plan| plan.actions());
    match (random.below(28), plan.zip(actions)) {
        (0..=4, _) | (_, None) => spoiled_bytes(table, random),
        (5..=9, Some((plan, actions))) => spoiled_words(plan, actions, random),
        (10..=14, Some((plan, actions))) => spoiled_items(plan, actions, random),
        (15..=19, Some((plan, actions))) => spoiled_finely(plan, actions, random),
        (20..=23, _) => wrong_layout(table, random),
        (24..=25, _) => wrong_grammar(table, random),
        (_, Some((plan, actions))) => spoiled_productions(plan, actions, random),
    }
}

fn spoiled_bytes(table: &[u8], random: &mut Random) -> Vec<u8> {
    let mut bytes = table.to_vec();
    if bytes.is_empty() {
        return vec![b'L'];
    }
    match random.below(8) {
        0 => bytes.truncate(random.below(table.len() + 1)),
        1 => bytes.truncate(table.len().saturating_sub(random.between(1, 12))),
        2 => bytes.extend((0..random.between(1, 12)).map(|at| at as u8)),
        3 => change_byte(&mut bytes, random, 9),
        4 => {
            let (one, other) = (random.below(table.len()), random.below(table.len()));
            bytes.swap(one, other);
        }
        _ => {
            for _ in 0..random.between(1, 3) {
                change_byte(&mut bytes, random, table.len());
            }
        }
    }
    bytes
}

/// Changes one of the first bytes: by one, in one bit, or to anything.
fn change_byte(bytes: &mut [u8], random: &mut Random, first: usize) {
    let at = random.below(first.min(bytes.len()));
    bytes[at] = match random.below(4) {
        0 => bytes[at].wrapping_add(1),
        1 => bytes[at].wrapping_sub(1),
        2 => bytes[at] ^ 1 << random.below(8),
        _ => random.word() as u8,
    };
}

/// Changes an action word or a goto to one in range.
fn spoiled_words(mut plan: Plan, mut actions: Vec<ActionRow>, random: &mut Random) -> Vec<u8> {
    let states = plan.states.len();
    let state = random.below(states);
    let target = random.below(states);
    if random.chance(30) {
        let symbol = NONTERMINAL + random.below(plan.grammar.nonterminals) as u8;
        match random.chance(40) {
            true => plan.states[state].transitions.remove(&symbol),
            false => plan.states[state].transitions.insert(symbol, target),
        };
    } else {
        let terminal = random.below(plan.grammar.terminals);
        let production = random.below(plan.grammar.productions.len());
        actions[state][terminal] = match random.below(6) {
            0 => 0,
            1 => 1,
            2..=3 => 256 + target as u16,
            _ => 512 + production as u16,
        };
    }
    plan.bytes_with(&actions)
}

/// Changes the items of a state while actions and gotos stand.
fn spoiled_items(mut plan: Plan, actions: Vec<ActionRow>, random: &mut Random) -> Vec<u8> {
    let at = random.below(plan.states.len());
    let keys: Vec<(u8, u8)> = plan.states[at].items.keys().copied().collect();
    let key = *random.pick(&keys);
    let terminal = TerminalSet::one(random.below(plan.grammar.terminals) as u8);
    let production = random.below(plan.grammar.productions.len());
    let dot = random.between(0, plan.grammar.productions[production].length as usize);
    let other = (production as u8, dot as u8);
    let items = &mut plan.states[at].items;
    let held = items[&key];
    match random.below(5) {
        0 => items.insert(key, held.join(terminal)),
        1 => items.insert(key, TerminalSet(held.0 & !terminal.0)),
        2 => items.remove(&key),
        3 => items.insert(other, terminal),
        _ => items.remove(&key).and_then(|held| items.insert(other, held)),
    };
    plan.bytes_with(&actions)
}

/// Adds an item that no chain leads to, or one with its dot moved to state 0, or a state that nothing
/// leads to without one of its items; takes a lookahead from an item with dot 0; leads two symbols to
/// one state. Actions are worked out anew, so that few conditions break.
fn spoiled_finely(mut plan: Plan, actions: Vec<ActionRow>, random: &mut Random) -> Vec<u8> {
    match random.below(9) {
        0 => vary::add_unled_item(&mut plan, random),
        1 => {
            vary::copy_state(&mut plan, random);
            vary::add_unled_item(&mut plan, random);
        }
        2..=4 => vary::copy_without_item(&mut plan, random),
        5 => vary::drop_lookahead(&mut plan, random),
        6 => vary::add_moved_item(&mut plan, random),
        7 => vary::join_targets(&mut plan, random),
        _ => vary::copy_state_0(&mut plan),
    }
    plan.bytes().unwrap_or_else(|| plan.bytes_with(&actions))
}

/// Changes a production's left side, length or a symbol; mostly within range.
fn spoiled_productions(mut plan: Plan, actions: Vec<ActionRow>, random: &mut Random) -> Vec<u8> {
    let (terminals, nonterminals) = (plan.grammar.terminals, plan.grammar.nonterminals);
    let any = random.below(plan.grammar.productions.len());
    let at = if random.chance(25) { 0 } else { any };
    let rule = &mut plan.grammar.productions[at];
    match random.below(6) {
        0 => rule.left = random.below(nonterminals + 1) as u8,
        1 => rule.length = random.below(10) as u8,
        2 => {
            let used = rule.length as usize;
            rule.length = used.saturating_sub(1) as u8;
            rule.symbols[used.saturating_sub(1)] = 0;
        }
        3 => rule.symbols[random.below(8)] = *random.pick(&[0, 1, NONTERMINAL, NONTERMINAL + 1]),
        4 => rule.symbols[0] = random.below(terminals + 1) as u8,
        _ => rule.symbols[0] = NONTERMINAL + random.below(nonterminals + 1) as u8,
    }
    plan.bytes_with(&actions)
}
