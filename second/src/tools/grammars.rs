//! Random grammars: small ones of common shapes, so that many of them have tables, at times wide ones.

use crate::sheet::{Production, NONTERMINAL};
use crate::tools::make::{canonical, merged, partly_merged};
use crate::tools::plan::{production, Grammar, Plan};
use crate::tools::random::Random;
use crate::tools::vary;

/// A random table that ought to be accepted, as a plan without conflicts.
pub fn random_plan(random: &mut Random) -> Plan {
    loop {
        let grammar = random_grammar(random);
        if let Some(plan) = plan_for(&grammar, random) {
            return plan;
        }
    }
}

fn plan_for(grammar: &Grammar, random: &mut Random) -> Option<Plan> {
    if !derives_all(grammar) {
        return None;
    }
    let states = canonical(grammar, 120)?;
    let mut plan = match random.below(10) {
        0..=4 => merged(&states),
        5..=6 => partly_merged(&states, random),
        _ => states,
    };
    plan.actions()?;
    vary_plan(&mut plan, random);
    plan.bytes().map(|_| plan)
}

/// Changes that keep the conditions, some of the time.
pub fn vary_plan(plan: &mut Plan, random: &mut Random) {
    while random.chance(15) && plan.states.len() < 200 {
        vary::copy_state(plan, random);
    }
    if random.chance(30) {
        vary::enlarge_sets(plan, random);
    }
    if random.chance(40) {
        vary::permute_states(plan, random);
    }
    if random.chance(40) {
        vary::permute_productions(plan, random);
    }
}

fn random_grammar(random: &mut Random) -> Grammar {
    let terminals = match random.below(20) {
        0 => 1,
        1 if random.chance(25) => 64,
        1 => random.between(7, 64),
        _ => random.between(2, 6),
    };
    let nonterminals = random.between(2, 6);
    let mut maker = Maker { terminals, nonterminals, random };
    let start = if maker.random.chance(80) { 1 } else { maker.nonterminal() - NONTERMINAL };
    let mut productions = vec![production(0, &[NONTERMINAL + start])];
    for left in 1..nonterminals as u8 {
        let right_sides = maker.right_sides(left);
        productions.extend(right_sides.iter().map(|right_side| production(left, right_side)));
    }
    let mut grammar = Grammar { terminals, nonterminals, productions };
    if random.chance(12) {
        add_hollow(&mut grammar, random);
    }
    if random.chance(3) {
        widen(&mut grammar, random);
    }
    grammar
}

/// Adds a nonterminal whose piece has nodes and no tokens, mostly at the end of right sides.
fn add_hollow(grammar: &mut Grammar, random: &mut Random) {
    let (hollow, nothing) = (grammar.nonterminals as u8, grammar.nonterminals as u8 + 1);
    let parts = vec![NONTERMINAL + nothing; random.between(1, 3)];
    for rule in grammar.productions.iter_mut().skip(1) {
        let mut right_side = rule.right_side().to_vec();
        if right_side.len() < 8 && random.chance(50) {
            let at = if random.chance(80) {
                right_side.len()
            } else {
                random.below(right_side.len() + 1)
            };
            right_side.insert(at, NONTERMINAL + hollow);
            *rule = production(rule.left, &right_side);
        }
    }
    grammar.productions.extend([production(hollow, &parts), production(nothing, &[])]);
    grammar.nonterminals += 2;
}

/// Adds nonterminals that nothing leads to, up to 64 of them and up to 200 productions.
fn widen(grammar: &mut Grammar, random: &mut Random) {
    let (nonterminals, productions) = (random.between(40, 64), random.between(100, 200));
    while grammar.nonterminals < nonterminals {
        let left = grammar.nonterminals as u8;
        grammar.productions.push(production(left, &[]));
        grammar.nonterminals += 1;
    }
    while grammar.productions.len() < productions {
        let left = random.between(grammar.nonterminals - 20, grammar.nonterminals - 1) as u8;
        let symbol = NONTERMINAL + random.between(1, grammar.nonterminals - 1) as u8;
        grammar.productions.push(production(left, &[symbol, symbol]));
    }
}

struct Maker<'a> {
    terminals: usize,
    nonterminals: usize,
    random: &'a mut Random,
}

impl Maker<'_> {
    fn nonterminal(&mut self) -> u8 {
        NONTERMINAL + self.random.between(1, self.nonterminals - 1) as u8
    }

    /// A terminal other than the end mark, or a nonterminal where there is none.
    fn terminal(&mut self) -> u8 {
        match self.terminals {
            1 => self.nonterminal(),
            count => self.random.between(1, count - 1) as u8,
        }
    }

    fn symbol(&mut self) -> u8 {
        if self.random.chance(55) {
            self.terminal()
        } else {
            self.nonterminal()
        }
    }

    /// The right sides of a nonterminal, of one of the common shapes.
    fn right_sides(&mut self, left: u8) -> Vec<Vec<u8>> {
        if self.terminals > 12 && self.random.chance(40) {
            return self.one_for_each_terminal();
        }
        let own = NONTERMINAL + left;
        let later = NONTERMINAL + (left as usize + 1).min(self.nonterminals - 1) as u8;
        let (element, mark) = (self.symbol(), self.terminal());
        let (open, close) = (self.terminal(), self.terminal());
        match self.random.below(18) {
            0..=2 => vec![vec![], vec![own, later]],
            3 => vec![vec![], vec![own, mark]],
            4 => vec![vec![], vec![own, open, self.nonterminal(), close]],
            5 => vec![vec![element], vec![own, mark, element]],
            6 => vec![vec![], vec![element, own]],
            7 => vec![vec![], vec![element]],
            8..=9 => vec![vec![mark], vec![open, self.nonterminal(), close]],
            10 => vec![vec![later], vec![mark, own]],
            11 => vec![vec![later, self.nonterminal()], vec![mark]],
            12 => vec![vec![open, element], vec![open, element, close]],
            13 => vec![vec![later, mark], vec![later, open, own]],
            _ => self.free_right_sides(),
        }
    }

    /// Many alternatives, so that a state has many items.
    fn one_for_each_terminal(&mut self) -> Vec<Vec<u8>> {
        let last = self.terminals.min(50) as u8;
        (1..last).map(|terminal| vec![terminal]).collect()
    }

    fn free_right_sides(&mut self) -> Vec<Vec<u8>> {
        let count = *self.random.pick(&[1, 1, 2, 2, 3]);
        (0..count).map(|_| self.free_right_side()).collect()
    }

    fn free_right_side(&mut self) -> Vec<u8> {
        let length = *self.random.pick(&[0, 0, 1, 1, 1, 2, 2, 2, 3, 3, 4, 5, 8]);
        (0..length).map(|_| self.symbol()).collect()
    }
}

/// Whether every nonterminal derives some string of terminals.
pub fn derives_all(grammar: &Grammar) -> bool {
    let mut derives = vec![false; grammar.nonterminals];
    let right = |rule: &Production, derives: &[bool]| {
        rule.right_side().iter().all(|&s| s < NONTERMINAL || derives[(s - NONTERMINAL) as usize])
    };
    loop {
        let more = grammar
            .productions
            .iter()
            .find(|rule| !derives[rule.left as usize] && right(rule, &derives));
        match more {
            Some(rule) => derives[rule.left as usize] = true,
            None => return derives.into_iter().all(|derived| derived),
        }
    }
}
