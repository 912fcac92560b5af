//! Updating a tree after edits: the reading list is read, then kept and new numbers are given.

use crate::answer::{answer_into, Accepted, Answer, Refusal};
use crate::check::accepted_sheet;
use crate::edits::{edits_in_rule, reading_list, Element};
use crate::machine::{Machine, Move};
use crate::numbers::numbers_for;
use crate::sheet::{Sheet, END};
use crate::tree::{children, piece_begin, row_of, tree_in_order, Node, OldTree};

/// Updates the old tree by the edits, whose inserted codes are `put`, and writes the new tree.
pub fn update(
    table: &[u8],
    old: &[u32],
    edits: &[u32],
    put: &[u32],
    tree: &mut [u32],
    room: &mut [u32],
) -> Answer {
    answer_into(tree, room, || update_row(table, old, edits, put))
}

fn update_row(table: &[u8], row: &[u32], words: &[u32], put: &[u32]) -> Result<Accepted, Refusal> {
    let sheet = accepted_sheet(table)?;
    let old = tree_in_order(&sheet, row).ok_or(Refusal::from(5))?;
    let edits = edits_in_rule(&sheet, old.token_nodes.len(), words, put);
    let edits = edits.ok_or(Refusal::from(6))?;
    let machine = run(&sheet, &old, reading_list(&old, &edits, put))?;
    let counts = machine.counts;
    let nodes = machine.into_nodes();
    let (numbers, next_number) = numbers_for(&nodes, &old).ok_or(Refusal::from(9))?;
    Ok(Accepted { row: row_of(&nodes, &numbers, next_number), counts })
}

/// Runs the machine over the reading list, whose next element is its last, to acceptance.
fn run<'a>(
    sheet: &'a Sheet,
    old: &OldTree,
    mut list: Vec<Element>,
) -> Result<Machine<'a>, Refusal> {
    let mut machine = Machine::new(sheet);
    loop {
        let token = match list.last() {
            None => Node::token(END as u32, None),
            Some(&Element::Put(code)) => Node::token(code, None),
            Some(&Element::Old(node)) if old.nodes[node].is_token() => old.nodes[node],
            Some(&Element::Old(node)) => {
                list.pop();
                read_piece(&mut machine, old, node, &mut list)?;
                continue;
            }
        };
        match machine.step(token.kind as u8, token)? {
            Move::Shifted => {
                list.pop();
            }
            Move::Reduced => {}
            Move::Accepted => return Ok(machine),
        }
    }
}

/// The move for a next piece that is a nonterminal: reductions for its first token, then a whole
/// shift, or a left-break where there is no goto.
fn read_piece(
    machine: &mut Machine,
    old: &OldTree,
    node: usize,
    list: &mut Vec<Element>,
) -> Result<(), Refusal> {
    machine.reduce_for(old.first_token(node))?;
    let piece = &old.nodes[piece_begin(&old.nodes, node)..=node];
    if !machine.shift_whole(piece)? {
        machine.counts.left_breaks += 1;
        let with_tokens = children(&old.nodes, node).filter(|&child| old.nodes[child].tokens > 0);
        list.extend(with_tokens.map(Element::Old));
    }
    Ok(())
}
