//! Changes to a table that keep the conditions: larger sets, other orders, copies of states; and some
//! that break condition 1, 6 or 7 alone at times.

use std::collections::BTreeMap;

use crate::grammar::First;
use crate::set::TerminalSet;
use crate::sheet::END;
use crate::tools::make::asked_by;
use crate::tools::plan::{Plan, State};
use crate::tools::random::Random;

/// Tries some larger lookahead sets; each is kept where no conflict follows.
pub fn enlarge_sets(plan: &mut Plan, random: &mut Random) {
    let first = First::of(&plan.grammar.productions);
    for _ in 0..random.between(1, 6) {
        let state = random.below(plan.states.len());
        let items: Vec<(u8, u8)> = plan.states[state].items.keys().copied().collect();
        let item = *random.pick(&items);
        let terminal = random.below(plan.grammar.terminals) as u8;
        let mut larger = plan.clone();
        let set = TerminalSet::one(terminal);
        if add(&mut larger, &first, state, item, set) && larger.actions().is_some() {
            *plan = larger;
        }
    }
}

/// Tries to add an item (p,0) that no chain leads to, and what conditions 2 and 3 ask for with it.
pub fn add_unled_item(plan: &mut Plan, random: &mut Random) {
    let first = First::of(&plan.grammar.productions);
    for _ in 0..8 {
        let state = random.below(plan.states.len());
        let item = (random.below(plan.grammar.productions.len()) as u8, 0);
        let set = TerminalSet::one(random.below(plan.grammar.terminals) as u8);
        let mut larger = plan.clone();
        let is_new = !plan.states[state].items.contains_key(&item);
        if is_new && add(&mut larger, &first, state, item, set) && larger.actions().is_some() {
            *plan = larger;
            return;
        }
    }
}

/// Tries to add an item with a dot above 0 to state 0, and what conditions 2 and 3 ask for with it.
pub fn add_moved_item(plan: &mut Plan, random: &mut Random) {
    let first = First::of(&plan.grammar.productions);
    for _ in 0..8 {
        let production = random.below(plan.grammar.productions.len());
        let dot = random.between(0, plan.grammar.productions[production].length as usize);
        let set = TerminalSet::one(random.below(plan.grammar.terminals) as u8);
        let mut larger = plan.clone();
        let item = (production as u8, dot as u8);
        if dot > 0 && add(&mut larger, &first, 0, item, set) && larger.actions().is_some() {
            *plan = larger;
            return;
        }
    }
}

/// Adds lookaheads to an item and to all that conditions 2 and 3 ask for; false where production 0
/// would get other lookaheads than the end mark, or a transition is missing.
pub fn add(plan: &mut Plan, first: &First, state: usize, item: (u8, u8), set: TerminalSet) -> bool {
    let mut open = vec![(state, item, set)];
    while let Some((state, item, set)) = open.pop() {
        if item.0 == 0 && set != TerminalSet::one(END) {
            return false;
        }
        let held = plan.states[state].items.entry(item).or_insert(TerminalSet::EMPTY);
        if set.within(*held) {
            continue;
        }
        *held = held.join(set);
        let asked = asked_by(&plan.grammar, first, item, set);
        open.extend(asked.into_iter().map(|(item, set)| (state, item, set)));
        if let Some(symbol) = plan.grammar.after(item) {
            let Some(&target) = plan.states[state].transitions.get(&symbol) else {
                return false;
            };
            open.push((target, (item.0, item.1 + 1), set));
        }
    }
    true
}

/// Gives the states after 0 other numbers.
pub fn permute_states(plan: &mut Plan, random: &mut Random) {
    let new_numbers = permutation(plan.states.len(), random);
    let mut states = vec![State::default(); plan.states.len()];
    for (number, mut state) in std::mem::take(&mut plan.states).into_iter().enumerate() {
        state.transitions.values_mut().for_each(|target| *target = new_numbers[*target]);
        states[new_numbers[number]] = state;
    }
    plan.states = states;
}

/// Gives the productions after 0 other numbers.
pub fn permute_productions(plan: &mut Plan, random: &mut Random) {
    let new_numbers = permutation(plan.grammar.productions.len(), random);
    let old = plan.grammar.productions.clone();
    for (number, rule) in old.into_iter().enumerate() {
        plan.grammar.productions[new_numbers[number]] = rule;
    }
    for state in &mut plan.states {
        let items = std::mem::take(&mut state.items).into_iter();
        let renamed =
            items.map(|((rule, dot), set)| ((new_numbers[rule as usize] as u8, dot), set));
        state.items = renamed.collect::<BTreeMap<_, _>>();
    }
}

/// Numbers below `count` in some order, 0 in its place.
fn permutation(count: usize, random: &mut Random) -> Vec<usize> {
    let mut numbers: Vec<usize> = (0..count).collect();
    random.shuffle(&mut numbers[1..]);
    numbers
}

/// Copies a state after 0 behind the others and leads some of the transitions into it to the copy.
pub fn copy_state(plan: &mut Plan, random: &mut Random) {
    let original = random.between(1, plan.states.len() - 1);
    let copy = plan.states.len();
    let percent = *random.pick(&[0, 30, 100]);
    plan.states.push(plan.states[original].clone());
    for state in &mut plan.states {
        for target in state.transitions.values_mut().filter(|target| **target == original) {
            if random.chance(percent) {
                *target = copy;
            }
        }
    }
}

/// Copies a state after 0 behind the others, where nothing leads to it, without one of its items:
/// where there is one, an item with a dot above 0 whose next symbol is also another item's.
pub fn copy_without_item(plan: &mut Plan, random: &mut Random) {
    let mut items: Vec<(usize, (u8, u8))> = Vec::new();
    for (number, state) in plan.states.iter().enumerate().skip(1) {
        let shared = state.items.keys().filter(|item| {
            let same =
                |other: &&(u8, u8)| plan.grammar.after(**other) == plan.grammar.after(**item);
            item.1 > 0
                && plan.grammar.after(**item).is_some()
                && state.items.keys().filter(same).count() > 1
        });
        items.extend(shared.map(|&item| (number, item)));
    }
    if items.is_empty() || random.chance(20) {
        let number = random.between(1, plan.states.len() - 1);
        items = plan.states[number].items.keys().map(|&item| (number, item)).collect();
    }
    let (number, item) = *random.pick(&items);
    let mut copy = plan.states[number].clone();
    copy.items.remove(&item);
    plan.states.push(copy);
}

/// Tries to lead two transitions of one state to one state with the items of both targets, so that it
/// is entered on two symbols.
pub fn join_targets(plan: &mut Plan, random: &mut Random) {
    for _ in 0..8 {
        let from = random.below(plan.states.len());
        let leads: Vec<(u8, usize)> =
            plan.states[from].transitions.iter().map(|(&symbol, &to)| (symbol, to)).collect();
        if leads.len() < 2 {
            continue;
        }
        let ((one, first), (two, second)) = (*random.pick(&leads), *random.pick(&leads));
        let mut joint = plan.states[first].clone();
        let other = plan.states[second].clone();
        let agree =
            |(symbol, to): (&u8, &usize)| joint.transitions.get(symbol).is_none_or(|t| t == to);
        if one == two || !other.transitions.iter().all(agree) {
            continue;
        }
        for (item, set) in other.items {
            let held = joint.items.entry(item).or_insert(TerminalSet::EMPTY);
            *held = held.join(set);
        }
        joint.transitions.extend(other.transitions);
        let mut larger = plan.clone();
        larger.states.push(joint);
        let to = plan.states.len();
        larger.states[from].transitions.extend([(one, to), (two, to)]);
        if larger.actions().is_some() {
            *plan = larger;
            return;
        }
    }
}

/// Takes one lookahead from an item with dot 0 and more than one of them.
pub fn drop_lookahead(plan: &mut Plan, random: &mut Random) {
    let many = |(item, set): &(&(u8, u8), &TerminalSet)| item.1 == 0 && set.0.count_ones() > 1;
    let states = plan.states.iter().enumerate();
    let items: Vec<(usize, (u8, u8))> = states
        .flat_map(|(number, state)| {
            state.items.iter().filter(many).map(move |(&item, _)| (number, item))
        })
        .collect();
    if items.is_empty() {
        return;
    }
    let (number, item) = *random.pick(&items);
    if let Some(set) = plan.states[number].items.get_mut(&item) {
        let held: Vec<u8> = set.terminals().collect();
        set.0 &= !TerminalSet::one(*random.pick(&held)).0;
    }
}

/// Copies state 0 behind the others, where nothing leads to it.
pub fn copy_state_0(plan: &mut Plan) {
    plan.states.push(plan.states[0].clone());
}

/// Copies states until there are 200, or about 2,400 items: at times one too many of either.
pub fn copy_to_limits(plan: &mut Plan, random: &mut Random) {
    let over = random.below(2);
    while plan.states.len() < 200 {
        let room = (2400 + over).saturating_sub(plan.item_count());
        let fitting = (1..plan.states.len()).filter(|&n| plan.states[n].items.len() <= room);
        let fitting: Vec<usize> = fitting.collect();
        if fitting.is_empty() {
            return;
        }
        let largest = fitting.iter().copied().max_by_key(|&n| plan.states[n].items.len());
        let chosen = if random.chance(70) { largest.unwrap_or(1) } else { *random.pick(&fitting) };
        plan.states.push(plan.states[chosen].clone());
    }
}
