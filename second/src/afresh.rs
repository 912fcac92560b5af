//! Reading a text of tokens afresh.

use crate::answer::{answer_into, Accepted, Answer, Refusal, MOST_TOKENS};
use crate::check::accepted_sheet;
use crate::machine::{Machine, Move};
use crate::sheet::{Sheet, END};
use crate::tree::{row_of, Node};

/// Reads the token codes by the table and writes the tree, its nodes numbered from `first`.
pub fn read_afresh(
    table: &[u8],
    codes: &[u32],
    first: u32,
    tree: &mut [u32],
    room: &mut [u32],
) -> Answer {
    answer_into(tree, room, || read(table, codes, first))
}

fn read(table: &[u8], codes: &[u32], first: u32) -> Result<Accepted, Refusal> {
    let sheet = accepted_sheet(table)?;
    let codes_are_right = codes.iter().all(|&code| sheet.is_token(code));
    if codes.len() > MOST_TOKENS || !codes_are_right || first == 0 {
        return Err(Refusal::from(6));
    }
    let machine = run(&sheet, codes)?;
    let counts = machine.counts;
    let nodes = machine.into_nodes();
    let next_number = first.checked_add(nodes.len() as u32).ok_or(Refusal::from(9))?;
    let numbers: Vec<u32> = (first..next_number).collect();
    Ok(Accepted { row: row_of(&nodes, &numbers, next_number), counts })
}

/// Runs the machine over the codes and the end mark to acceptance.
fn run<'a>(sheet: &'a Sheet, codes: &[u32]) -> Result<Machine<'a>, Refusal> {
    let mut machine = Machine::new(sheet);
    let mut shifted = 0;
    loop {
        let next = codes.get(shifted).copied().unwrap_or(END as u32);
        match machine.step(next as u8, Node::token(next, None))? {
            Move::Shifted => shifted += 1,
            Move::Reduced => {}
            Move::Accepted => return Ok(machine),
        }
    }
}
