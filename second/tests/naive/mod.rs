//! The definitions of document 01 written out as they stand, without regard to time, to compare with.

#![allow(dead_code)]

use second::edits::{Edit, Element};
use second::grammar::First;
use second::set::TerminalSet;
use second::sheet::{Action, Sheet, NONTERMINAL};
use second::tree::{Node, OldTree};

/// The broken state conditions, each quantifier a loop.
pub fn broken_conditions(sheet: &Sheet) -> Vec<u8> {
    let mut broken = Vec::new();
    for state in sheet.state_numbers() {
        broken.extend(broken_in(sheet, state));
    }
    broken.sort();
    broken.dedup();
    broken
}

fn has(sheet: &Sheet, state: u8, production: u8, dot: u8, terminal: u8) -> bool {
    let mut items = sheet.items(state).iter();
    items.any(|i| i.production == production && i.dot == dot && i.set.holds(terminal))
}

fn has_item(sheet: &Sheet, state: u8, production: u8, dot: u8) -> bool {
    sheet.items(state).iter().any(|item| item.production == production && item.dot == dot)
}

fn broken_in(sheet: &Sheet, state: u8) -> Vec<u8> {
    let conditions = [one, two, three, four, five, six, seven];
    (1..=7).filter(|&number| !conditions[number as usize - 1](sheet, state)).collect()
}

fn one(sheet: &Sheet, state: u8) -> bool {
    let begins =
        state != 0 || has(sheet, 0, 0, 0, 0) && sheet.items(0).iter().all(|item| item.dot == 0);
    let sets = sheet.items(state).iter().all(|i| i.production != 0 || i.set == TerminalSet(1));
    begins && sets && (state == 0 || !has_item(sheet, state, 0, 0))
}

fn two(sheet: &Sheet, state: u8) -> bool {
    let first = First::of(&sheet.productions);
    for item in sheet.items(state) {
        let Some(symbol) = sheet.after_dot(item).filter(|&s| s >= NONTERMINAL) else {
            continue;
        };
        let rest =
            &sheet.productions[item.production as usize].right_side()[item.dot as usize + 1..];
        for (number, rule) in sheet.productions.iter().enumerate() {
            if rule.left != symbol - NONTERMINAL {
                continue;
            }
            for a in item.set.terminals() {
                let mut wanted = first.of_string_then(rest, TerminalSet::one(a)).terminals();
                if !wanted.all(|b| has(sheet, state, number as u8, 0, b)) {
                    return false;
                }
            }
        }
    }
    true
}

fn three(sheet: &Sheet, state: u8) -> bool {
    sheet.items(state).iter().all(|item| {
        let Some(symbol) = sheet.after_dot(item) else {
            return true;
        };
        let Some(target) = sheet.transition(state, symbol) else {
            return false;
        };
        item.set.terminals().all(|a| has(sheet, target, item.production, item.dot + 1, a))
    })
}

fn four(sheet: &Sheet, state: u8) -> bool {
    sheet.items(state).iter().filter(|item| sheet.after_dot(item).is_none()).all(|item| {
        item.set.terminals().all(|a| match sheet.action(state, a) {
            Action::Accept => item.production == 0,
            Action::Reduce(production) => production == item.production && production != 0,
            _ => false,
        })
    })
}

fn five(sheet: &Sheet, state: u8) -> bool {
    let after = |symbol| sheet.items(state).iter().any(|i| sheet.after_dot(i) == Some(symbol));
    let transitions = sheet.symbols().all(|s| sheet.transition(state, s).is_none() || after(s));
    let actions = (0..sheet.terminals as u8).all(|a| match sheet.action(state, a) {
        Action::Reduce(p) => has(sheet, state, p, sheet.productions[p as usize].length, a),
        Action::Accept => a == 0 && has_item(sheet, state, 0, 1),
        _ => true,
    });
    transitions && actions
}

fn six(sheet: &Sheet, target: u8) -> bool {
    sheet.items(target).iter().filter(|item| item.dot > 0).all(|item| {
        sheet.state_numbers().all(|state| {
            sheet.symbols().filter(|&s| sheet.transition(state, s) == Some(target)).all(|symbol| {
                let rule = &sheet.productions[item.production as usize];
                rule.right_side()[item.dot as usize - 1] == symbol
                    && has_item(sheet, state, item.production, item.dot - 1)
            })
        })
    })
}

fn seven(sheet: &Sheet, state: u8) -> bool {
    let items = sheet.items(state);
    let mut led: Vec<bool> = items.iter().map(|i| i.dot > 0 || i.production == 0).collect();
    for _ in items {
        for from in 0..items.len() {
            let after = sheet.after_dot(&items[from]).filter(|_| led[from]);
            for to in 0..items.len() {
                let left = NONTERMINAL + sheet.productions[items[to].production as usize].left;
                led[to] |= items[to].dot == 0 && after == Some(left);
            }
        }
    }
    led.into_iter().all(|reached| reached)
}

/// The new text: for each token the place of the old one it is, or its inserted code.
pub fn new_text(old_tokens: usize, edits: &[Edit], put: &[u32]) -> Vec<Result<usize, u32>> {
    let mut text = Vec::new();
    let mut end = 0;
    for edit in edits {
        text.extend((end..edit.place).map(Ok));
        text.extend(put[edit.put.clone()].iter().map(|&code| Err(code)));
        end = edit.place + edit.removed;
    }
    text.extend((end..old_tokens).map(Ok));
    text
}

/// The reading list in text order, by the definition of clean pieces.
pub fn reading_list(old: &OldTree, edits: &[Edit], put: &[u32]) -> Vec<Element> {
    let text = new_text(old.token_nodes.len(), edits, put);
    let inside = |inner: usize, outer: usize| {
        inner <= outer && inner + old.nodes[outer].size as usize > outer
    };
    let clean: Vec<usize> =
        (0..old.nodes.len()).filter(|&node| is_clean(old, node, &text)).collect();
    let largest = |node: usize| !clean.iter().any(|&other| other != node && inside(node, other));
    let mut list = Vec::new();
    for token in text {
        match token {
            Err(code) => list.push(Element::Put(code)),
            Ok(token) => {
                let begins =
                    |&&node: &&usize| old.token_range(node).start == token && largest(node);
                list.extend(clean.iter().find(begins).map(|&node| Element::Old(node)));
            }
        }
    }
    list
}

fn is_clean(old: &OldTree, node: usize, text: &[Result<usize, u32>]) -> bool {
    let tokens: Vec<Result<usize, u32>> = old.token_range(node).map(Ok).collect();
    !tokens.is_empty() && text.windows(tokens.len()).any(|part| part == tokens)
}

/// A piece's nodes.
fn piece(nodes: &[Node], node: usize) -> &[Node] {
    &nodes[node + 1 - nodes[node].size as usize..=node]
}

fn equal(one: &[Node], other: &[Node]) -> bool {
    one.len() == other.len()
        && one
            .iter()
            .zip(other)
            .all(|(a, b)| a.kind == b.kind && a.size == b.size && (!a.is_token() || a.old == b.old))
}

/// The number that each new node keeps, by comparing every new piece with every old one.
pub fn kept_numbers(new: &[Node], old: &OldTree) -> Vec<Option<u32>> {
    let mut kept = vec![None; new.len()];
    let (new_root, old_root) = (new.len() - 1, old.nodes.len() - 1);
    for node in 0..new.len() {
        for other in 0..old.nodes.len() {
            let (one, two) = (piece(new, node), piece(&old.nodes, other));
            let whole = node == new_root && other == old_root;
            if !(new[node].tokens > 0 || whole) || !equal(one, two) {
                continue;
            }
            for (place, from) in (0..one.len()).map(|at| (node - at, other - at)) {
                assert!(kept[place].is_none_or(|number| number == old.numbers[from]));
                kept[place] = Some(old.numbers[from]);
            }
        }
    }
    kept
}
