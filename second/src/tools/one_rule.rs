//! Tables that break one rule of layout or of the grammar and keep the others, as far as that can be.

use crate::sheet::{read_sheet, Sheet, END, NONTERMINAL};
use crate::tools::plan::{production, Plan, State};
use crate::tools::random::Random;

/// The table with one count past its limit, or one entry out of range.
pub fn wrong_layout(table: &[u8], random: &mut Random) -> Vec<u8> {
    let Some(sheet) = read_sheet(table) else {
        return table.to_vec();
    };
    match random.below(4) {
        0 => wrong_count(&sheet, random),
        1 => wrong_item(table, &sheet, random),
        2 => wrong_rule(table, &sheet, random),
        _ => wrong_move(table, &sheet, random),
    }
}

/// One of the four counts is one past its limit, and all that follows has the length it asks for.
fn wrong_count(sheet: &Sheet, random: &mut Random) -> Vec<u8> {
    let mut plan = Plan::of_sheet(sheet);
    let Some(mut actions) = plan.actions() else {
        return Vec::new();
    };
    match random.below(7) {
        0 => {
            plan.grammar.terminals = 65;
            actions.iter_mut().for_each(|row| row.resize(65, 0));
        }
        1 => plan.grammar.nonterminals = 65,
        2 => plan.grammar.productions.resize(201, production(1, &[])),
        3 => {
            while plan.states.len() < 201 {
                plan.states.push(State { items: plan.states[1].items.clone(), ..State::default() });
                actions.push(vec![0; plan.grammar.terminals]);
            }
            shorten_items(&mut plan);
        }
        4 => leave_nonterminal_0(&mut plan),
        5 => {
            plan.grammar.productions.truncate(1);
            leave_production_0(&mut plan, &mut actions);
        }
        _ => {
            plan.states.truncate(1);
            actions.truncate(1);
            plan.states[0].transitions.clear();
            actions[0].fill(0);
        }
    }
    plan.bytes_with(&actions)
}

/// Leaves each state one item, so that 2,400 are not passed.
fn shorten_items(plan: &mut Plan) {
    for state in &mut plan.states {
        while state.items.len() > 1 {
            state.items.pop_last();
        }
    }
}

/// Takes every nonterminal for nonterminal 0.
fn leave_nonterminal_0(plan: &mut Plan) {
    plan.grammar.nonterminals = 1;
    for rule in &mut plan.grammar.productions {
        rule.left = 0;
        rule.symbols.iter_mut().for_each(|symbol| *symbol = NONTERMINAL.min(*symbol));
    }
    for state in &mut plan.states {
        state.transitions.retain(|&symbol, _| symbol < NONTERMINAL);
    }
}

/// Leaves only items of production 0, and no reductions by others.
fn leave_production_0(plan: &mut Plan, actions: &mut [Vec<u16>]) {
    for state in &mut plan.states {
        state.items.retain(|item, _| item.0 == 0);
        state.items.entry((0, 0)).or_insert(crate::set::TerminalSet::one(END));
    }
    let words = actions.iter_mut().flatten();
    words.filter(|word| **word >= 512).for_each(|word| *word = 512);
}

/// Where the productions, the actions, the gotos and the items begin.
fn parts(sheet: &Sheet) -> [usize; 4] {
    let actions = 9 + 10 * sheet.productions.len();
    let gotos = actions + 2 * sheet.states * sheet.terminals;
    [9, actions, gotos, gotos + sheet.states * sheet.nonterminals]
}

/// A change in the items of one state: two exchanged or alike, a production, a dot or a set wrong.
fn wrong_item(table: &[u8], sheet: &Sheet, random: &mut Random) -> Vec<u8> {
    let mut bytes = table.to_vec();
    let chosen = random.below(sheet.states) as u8;
    let before: usize = (0..chosen).map(|state| 2 + 10 * sheet.items(state).len()).sum();
    let first = parts(sheet)[3] + before + 2;
    let count = sheet.items(chosen).len();
    let at = random.below(count);
    let item = first + 10 * at;
    let length = sheet.productions[bytes[item] as usize].length;
    match random.below(7) {
        0 if count > 1 => {
            let other = first + 10 * ((at + 1) % count);
            (0..10).for_each(|byte| bytes.swap(item + byte, other + byte));
        }
        1 if count > 1 => {
            let from = first + 10 * ((at + 1) % count);
            bytes.copy_within(from..from + 10, item);
        }
        2 => bytes[item] = sheet.productions.len() as u8,
        3 => bytes[item + 1] = length + 1,
        4 => bytes[item + 2..item + 10].fill(0),
        5 if sheet.terminals < 64 => {
            bytes[item + 9 - sheet.terminals / 8] |= 1 << (sheet.terminals % 8)
        }
        _ => bytes[item + 2] ^= 128,
    }
    bytes
}

/// A change in one production that is out of range.
fn wrong_rule(table: &[u8], sheet: &Sheet, random: &mut Random) -> Vec<u8> {
    let mut bytes = table.to_vec();
    let chosen = random.below(sheet.productions.len());
    let rule = parts(sheet)[0] + 10 * chosen;
    let length = sheet.productions[chosen].length as usize;
    let used = rule + 2 + random.below(length.max(1));
    match random.below(5) {
        0 => bytes[rule] = sheet.nonterminals as u8,
        1 => bytes[rule + 1] = 9,
        2 if length > 0 => bytes[used] = sheet.terminals as u8,
        3 if length > 0 => bytes[used] = NONTERMINAL + sheet.nonterminals as u8,
        _ if length < 8 => {
            bytes[rule + 2 + random.between(length, 7)] = random.between(1, 255) as u8
        }
        _ => bytes[rule + 1] = random.between(9, 255) as u8,
    }
    bytes
}

/// An action word or a goto just out of range.
fn wrong_move(table: &[u8], sheet: &Sheet, random: &mut Random) -> Vec<u8> {
    let mut bytes = table.to_vec();
    let [_, actions, gotos, items] = parts(sheet);
    if random.chance(40) {
        let at = random.between(gotos, items - 1);
        bytes[at] = *random.pick(&[sheet.states as u8, 254]);
        return bytes;
    }
    let at = actions + 2 * random.below(sheet.states * sheet.terminals);
    let (states, productions) = (sheet.states as u16, sheet.productions.len() as u16);
    let word = *random.pick(&[2, 255, 256 + states, 511, 512 + productions, 767, 768, 65_535]);
    bytes[at..at + 2].copy_from_slice(&u16::to_be_bytes(word));
    bytes
}

/// The table with one grammar rule broken; layout and range stay right.
pub fn wrong_grammar(table: &[u8], random: &mut Random) -> Vec<u8> {
    let Some(sheet) = read_sheet(table) else {
        return table.to_vec();
    };
    let mut plan = Plan::of_sheet(&sheet);
    let Some(actions) = plan.actions() else {
        return table.to_vec();
    };
    let kind = random.below(7);
    let rules = &mut plan.grammar.productions;
    let other = random.between(1, rules.len() - 1);
    let length = rules[other].length as usize;
    match kind {
        0 => rules[0].left = random.between(1, sheet.nonterminals - 1) as u8,
        1 => rules[0] = production(0, &[rules[0].symbols[0]; 2]),
        2 if sheet.terminals > 1 => {
            rules[0].symbols[0] = random.between(1, sheet.terminals - 1) as u8
        }
        3 => rules[other].left = 0,
        4 | 5 if length > 0 => {
            let at = random.below(length);
            rules[other].symbols[at] = if kind == 4 { END } else { NONTERMINAL };
        }
        _ if sheet.nonterminals < 64 => plan.grammar.nonterminals += 1,
        _ => rules[0].symbols[0] = NONTERMINAL,
    }
    plan.bytes_with(&actions)
}
