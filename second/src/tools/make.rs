//! Making tables from grammars: canonical LR(1) states, and states of one core merged.

use std::collections::BTreeMap;

use crate::grammar::First;
use crate::set::TerminalSet;
use crate::sheet::{is_nonterminal, NONTERMINAL};
use crate::tools::plan::{beginning, Grammar, Items, Plan, State};
use crate::tools::random::Random;

/// The canonical LR(1) states, in order of discovery; `None` where there are too many.
pub fn canonical(grammar: &Grammar, most_states: usize) -> Option<Plan> {
    let first = First::of(&grammar.productions);
    let mut kernels = vec![beginning()];
    let mut numbers = BTreeMap::from([(beginning(), 0usize)]);
    let mut states: Vec<State> = Vec::new();
    while states.len() < kernels.len() {
        let items = close(grammar, &first, kernels[states.len()].clone());
        let mut transitions = BTreeMap::new();
        for (symbol, kernel) in moved(grammar, &items) {
            let number = *numbers.entry(kernel.clone()).or_insert(kernels.len());
            if number == kernels.len() {
                kernels.push(kernel);
            }
            transitions.insert(symbol, number);
        }
        states.push(State { items, transitions });
        if kernels.len() > most_states {
            return None;
        }
    }
    Some(Plan { grammar: grammar.clone(), states })
}

/// Adds items until condition 2 holds.
fn close(grammar: &Grammar, first: &First, mut items: Items) -> Items {
    let mut open: Vec<((u8, u8), TerminalSet)> = items.iter().map(|(&i, &s)| (i, s)).collect();
    while let Some((item, set)) = open.pop() {
        for (asked, more) in asked_by(grammar, first, item, set) {
            let held = items.entry(asked).or_insert(TerminalSet::EMPTY);
            if !more.within(*held) {
                *held = held.join(more);
                open.push((asked, more));
            }
        }
    }
    items
}

/// The items that condition 2 asks for beside (p,d) with these lookaheads.
pub fn asked_by(
    grammar: &Grammar,
    first: &First,
    item: (u8, u8),
    set: TerminalSet,
) -> Vec<((u8, u8), TerminalSet)> {
    let Some(symbol) = grammar.after(item).filter(|&symbol| is_nonterminal(symbol)) else {
        return Vec::new();
    };
    let right_side = grammar.productions[item.0 as usize].right_side();
    let follows = first.of_string_then(&right_side[item.1 as usize + 1..], set);
    grammar.productions_of(symbol - NONTERMINAL).map(|rule| ((rule, 0), follows)).collect()
}

/// The items with the dot moved over each symbol.
fn moved(grammar: &Grammar, items: &Items) -> BTreeMap<u8, Items> {
    let mut kernels: BTreeMap<u8, Items> = BTreeMap::new();
    for (&item, &set) in items {
        if let Some(symbol) = grammar.after(item) {
            kernels.entry(symbol).or_default().insert((item.0, item.1 + 1), set);
        }
    }
    kernels
}

/// All states of one core merged (LALR).
pub fn merged(plan: &Plan) -> Plan {
    let mut classes = Classes::new(plan.states.len());
    let mut numbers = BTreeMap::new();
    for (number, state) in plan.states.iter().enumerate() {
        let core: Vec<(u8, u8)> = state.items.keys().copied().collect();
        classes.unite(plan, number, *numbers.entry(core).or_insert(number));
    }
    classes.plan_of(plan)
}

/// Some states of one core merged, and with them the states they lead to.
pub fn partly_merged(plan: &Plan, random: &mut Random) -> Plan {
    let mut classes = Classes::new(plan.states.len());
    for _ in 0..random.between(1, 4) {
        let one = random.below(plan.states.len());
        let like =
            |number: &usize| plan.states[*number].items.keys().eq(plan.states[one].items.keys());
        let others: Vec<usize> = (0..plan.states.len()).filter(like).collect();
        classes.unite(plan, one, *random.pick(&others));
    }
    classes.plan_of(plan)
}

/// Which states are taken for one; each state names one of its class, at last the lowest.
struct Classes(Vec<usize>);

impl Classes {
    fn new(count: usize) -> Classes {
        Classes((0..count).collect())
    }

    fn find(&self, mut number: usize) -> usize {
        while self.0[number] != number {
            number = self.0[number];
        }
        number
    }

    /// Takes two states of one core for one, and so the states that they lead to.
    fn unite(&mut self, plan: &Plan, one: usize, other: usize) {
        let mut open = vec![(one, other)];
        while let Some((one, other)) = open.pop() {
            let (low, high) = (self.find(one), self.find(other));
            if low == high {
                continue;
            }
            self.0[low.max(high)] = low.min(high);
            let targets = plan.states[one].transitions.values();
            open.extend(targets.copied().zip(plan.states[other].transitions.values().copied()));
        }
    }

    fn plan_of(&self, plan: &Plan) -> Plan {
        let lowest: Vec<usize> = (0..plan.states.len()).filter(|&n| self.0[n] == n).collect();
        let number_of = |state: usize| lowest.binary_search(&self.find(state)).unwrap_or(0);
        let mut states = vec![State::default(); lowest.len()];
        for (number, state) in plan.states.iter().enumerate() {
            let target = &mut states[number_of(number)];
            for (&item, &set) in &state.items {
                let held = target.items.entry(item).or_insert(TerminalSet::EMPTY);
                *held = held.join(set);
            }
            let transitions = state.transitions.iter();
            target.transitions.extend(transitions.map(|(&symbol, &to)| (symbol, number_of(to))));
        }
        Plan { grammar: plan.grammar.clone(), states }
    }
}
