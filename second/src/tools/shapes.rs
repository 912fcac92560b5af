//! What an accepted table is like: merged or not, with sets as small as can be or larger, and so on. It
//! is worked out from the table alone, whoever made it.

use std::collections::BTreeSet;

use crate::grammar::First;
use crate::set::TerminalSet;
use crate::sheet::{Sheet, END};
use crate::tools::labels::Label;
use crate::tools::plan::Plan;
use crate::tools::vary::add;

/// Each thing that a table may show, and whether this one does.
pub fn table_labels(sheet: &Sheet) -> Vec<Label> {
    let plan = Plan::of_sheet(sheet);
    let least = least_sets(&plan);
    let reached = || (0..plan.states.len()).filter(|&state| !least.states[state].items.is_empty());
    let cores: BTreeSet<Vec<_>> =
        reached().map(|state| plan.states[state].items.keys().collect()).collect();
    let merged = cores.len() == reached().count();
    let larger = reached().any(|state| plan.states[state].items != least.states[state].items);
    let lengths = || plan.grammar.productions[1..].iter().map(|rule| rule.length);
    vec![
        ("each core once (merged)", merged),
        ("a core more than once (canonical, or partly merged)", !merged),
        ("sets as small as can be", !larger),
        ("larger sets", larger),
        ("states in order of discovery", in_order(&plan)),
        ("states in another order", !in_order(&plan)),
        ("a state that nothing leads to", reached().count() < plan.states.len()),
        ("no terminal but the end mark", sheet.terminals == 1),
        ("64 terminals", sheet.terminals == 64),
        ("20 nonterminals or more", sheet.nonterminals >= 20),
        ("100 productions or more", plan.grammar.productions.len() >= 100),
        ("100 states or more", plan.states.len() >= 100),
        ("200 states", plan.states.len() == 200),
        ("1,000 items or more", plan.item_count() >= 1_000),
        ("2,400 items", plan.item_count() == 2_400),
        ("an empty right side", lengths().any(|length| length == 0)),
        ("a right side of 8", lengths().any(|length| length == 8)),
    ]
}

/// The same states and transitions with the fewest items and lookaheads that conditions 1 to 3 ask for;
/// none in states that are not reached.
fn least_sets(plan: &Plan) -> Plan {
    let mut least = plan.clone();
    least.states.iter_mut().for_each(|state| state.items.clear());
    let first = First::of(&plan.grammar.productions);
    add(&mut least, &first, 0, (0, 0), TerminalSet::one(END));
    least
}

/// Whether the states are numbered as they are met from state 0.
fn in_order(plan: &Plan) -> bool {
    let mut met = vec![0];
    let mut at = 0;
    while at < met.len() {
        for &target in plan.states[met[at]].transitions.values() {
            if !met.contains(&target) {
                met.push(target);
            }
        }
        at += 1;
    }
    met.into_iter().enumerate().all(|(at, state)| at == state)
}
