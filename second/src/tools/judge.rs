//! The judge: makes the call of each case over filled buffers and tells what the library did.

use std::hint::black_box;
use std::io::{self, BufRead, Write};

use crate::answer::{Answer, ROOM_WORDS};
use crate::check::accepted_sheet;
use crate::edits::{edits_in_rule, reading_list, Element};
use crate::tools::case::{Case, Edited, Lent, MOST_ROOM_WORDS, MOST_TREE_WORDS};
use crate::tree::tree_in_order;
use crate::{check, read_afresh, update};

const TREE_FILL: u32 = 2_779_096_485;
const ROOM_FILL: u32 = 1_515_870_810;

/// Judges all cases of the input; prints `input` and stops where it is malformed. Each answer is
/// handed on at once, so that none is lost where a later case ends the program.
pub fn judge_all(input: &mut impl BufRead, output: &mut impl Write) -> io::Result<()> {
    let mut judge = Judge::new();
    loop {
        match Case::read(input) {
            Ok(None) => return Ok(()),
            Ok(Some(case)) => {
                output.write_all(judge.lines_for(&case).as_bytes())?;
                output.flush()?;
            }
            Err(_) => return output.write_all(b"input\n"),
        }
    }
}

/// The two buffers that cases are lent parts of.
pub struct Judge {
    tree: Vec<u32>,
    room: Vec<u32>,
}

impl Judge {
    pub fn new() -> Judge {
        Judge { tree: vec![0; MOST_TREE_WORDS], room: vec![0; MOST_ROOM_WORDS] }
    }

    /// One line for a table or a reading list, three for a reading or an update.
    pub fn lines_for(&mut self, case: &Case) -> String {
        match case {
            Case::Table { table } => format!("{}\n", check(table).number()),
            Case::Read { table, codes, first, lent, times } => self.told(*lent, |tree, room| {
                for _ in 1..*times {
                    black_box(read_afresh(table, codes, *first, tree, room));
                }
                read_afresh(table, codes, *first, tree, room)
            }),
            Case::Update { edited, lent, times } => self.told(*lent, |tree, room| {
                let Edited { table, row, edits, put } = edited;
                for _ in 1..*times {
                    black_box(update(table, row, edits, put, tree, room));
                }
                update(table, row, edits, put, tree, room)
            }),
            Case::List { edited } => match list_line(edited) {
                Ok(line) => line,
                Err(number) => format!("{number}\n"),
            },
        }
    }

    fn told(&mut self, lent: Lent, call: impl FnOnce(&mut [u32], &mut [u32]) -> Answer) -> String {
        let tree = &mut self.tree[..lent.tree];
        let room = &mut self.room[..lent.room];
        tree.fill(TREE_FILL);
        room.fill(ROOM_FILL);
        let answer = call(tree, room);
        three_lines(&answer, &tree_line(&answer, tree), room_line(room))
    }
}

impl Default for Judge {
    fn default() -> Judge {
        Judge::new()
    }
}

/// The reading list in reading order: a piece as its root's record and its nodes, an inserted code
/// behind a plus. Or the number of refusal.
fn list_line(edited: &Edited) -> Result<String, u32> {
    let sheet = accepted_sheet(&edited.table)?;
    let old = tree_in_order(&sheet, &edited.row).ok_or(5u32)?;
    let tokens = old.token_nodes.len();
    let edits = edits_in_rule(&sheet, tokens, &edited.edits, &edited.put).ok_or(6u32)?;
    let mut line = String::from("list");
    for element in reading_list(&old, &edits, &edited.put).iter().rev() {
        line.push_str(&match *element {
            Element::Old(node) => format!(" {node}/{}", old.nodes[node].size),
            Element::Put(code) => format!(" +{code}"),
        });
    }
    line.push('\n');
    Ok(line)
}

/// The answer in decimal, then the lines on tree and room.
pub fn three_lines(answer: &Answer, tree: &str, room: &str) -> String {
    let [left, right, whole, token, reductions] = answer.counts.in_order();
    let (number, place) = (answer.number, answer.place);
    format!("{number} {place} {left} {right} {whole} {token} {reductions}\n{tree}\n{room}\n")
}

/// The line for a tree's written words.
pub fn written_line(words: &[u32]) -> String {
    let mut line = String::from("tree");
    for word in words {
        line.push(' ');
        line.push_str(&word.to_string());
    }
    line
}

fn tree_line(answer: &Answer, tree: &[u32]) -> String {
    let written = match answer.number {
        0 => 2 + 3 * tree[0] as usize,
        _ => 0,
    };
    let as_lent = |part: &[u32]| part.iter().all(|&word| word == TREE_FILL);
    match tree.get(written..) {
        Some(rest) if as_lent(rest) && written == 0 => "tree as lent".to_string(),
        Some(rest) if as_lent(rest) => written_line(&tree[..written]),
        _ => "tree touched".to_string(),
    }
}

fn room_line(room: &[u32]) -> &'static str {
    let as_lent = |part: &[u32]| part.iter().all(|&word| word == ROOM_FILL);
    if as_lent(room) {
        return "room as lent";
    }
    let zeroed = room.len() >= ROOM_WORDS
        && room[..ROOM_WORDS].iter().all(|&word| word == 0)
        && as_lent(&room[ROOM_WORDS..]);
    if zeroed {
        "room zero"
    } else {
        "room touched"
    }
}
