//! Weights that hang on nodes by number: a move is put into a group, and each weight is looked up again. docs/USERS.md shows what it prints.

use std::collections::BTreeMap;

use blenkysnow::{house, Edit, Kind, Refusal, Room, Tree};

const M: u32 = 1;
const OPENS: u32 = 2;
const CLOSES: u32 = 3;

/// The text under the node at a place of a tree: the tokens of its piece, which ends there.
fn text_at(tree: &Tree, place: usize) -> String {
    let first = place + 1 - tree.node(place).size as usize;
    let word = |i| match tree.node(i).kind {
        Kind::Token(M) => Some("m"),
        Kind::Token(OPENS) => Some("["),
        Kind::Token(_) => Some("]"),
        Kind::Production(_) => None,
    };
    (first..=place).filter_map(word).collect::<Vec<_>>().join(" ")
}

fn main() -> Result<(), Refusal> {
    let table = house();
    let mut room = Room::new();
    let old = room.read_afresh(&table, &[M, OPENS, M, M, CLOSES], 1)?.tree;

    // a weight on each move and each group: the nodes of productions 3 and 4
    let mut weights = BTreeMap::new();
    for node in old.nodes() {
        if matches!(node.kind, Kind::Production(3 | 4)) {
            weights.insert(node.number, ["A", "B", "C", "D"][weights.len()]);
        }
    }

    let edit = Edit { place: 3, removed: 0, put_in: 1 };
    let new = room.update(&table, &old, &[edit], &[M])?.tree;
    for (&number, weight) in &weights {
        match new.find(number) {
            Some(place) => println!("{weight} hangs on {number}: {}", text_at(&new, place)),
            None => {
                let place = old.find(number).expect("it was hung on a node of the old tree");
                println!("{weight} came loose, {number} is gone: {}", text_at(&old, place));
            }
        }
    }
    Ok(())
}
