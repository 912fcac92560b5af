//! The program judge over the wrapper: cases of kinds T, C, R and U from standard input, and what the calls did on standard output, in the
//! format that the first lines of crates/judge/src/main.rt give. Kind E is U with the edits as structs. tests/boundary.py feeds it the
//! stored vectors.

use std::io::{self, Read, Write};

use blenkysnow::{check, rows, Counts, Edit, Refusal, TableRefusal, ROOM_WORDS};

/// What the words of a tree and of a room are before a call.
const TREE: u32 = 2779096485;
const ROOM: u32 = 1515870810;

/// The rest of the input.
struct Input<'a>(&'a [u8]);

impl<'a> Input<'a> {
    fn bytes(&mut self, count: usize) -> Option<&'a [u8]> {
        if self.0.len() < count {
            return None;
        }
        let (taken, rest) = self.0.split_at(count);
        self.0 = rest;
        Some(taken)
    }

    fn number(&mut self) -> Option<u32> {
        self.bytes(4).map(|b| u32::from_be_bytes([b[0], b[1], b[2], b[3]]))
    }

    fn table(&mut self) -> Option<&'a [u8]> {
        let count = self.number()? as usize;
        self.bytes(count)
    }

    fn words(&mut self) -> Option<Vec<u32>> {
        (0..self.number()?).map(|_| self.number()).collect()
    }

    /// A row of words as edits; none where it ends with a part of one.
    fn edits(&mut self) -> Option<Vec<Edit>> {
        let row = self.words()?;
        let edits = row.chunks_exact(3);
        let whole = edits.remainder().is_empty();
        let taken = edits.map(|e| Edit { place: e[0], removed: e[1], put_in: e[2] }).collect();
        whole.then_some(taken)
    }

    /// A row of as many words as the next number says, each this one.
    fn lent(&mut self, word: u32) -> Option<Vec<u32>> {
        self.number().map(|count| vec![word; count as usize])
    }
}

/// The lines of the table check, with the broken condition and its state where they are asked for.
fn checked(table: &[u8], named: bool) -> String {
    match check(table) {
        Ok(()) => "0\n".to_string(),
        Err(TableRefusal::States { condition, state }) if named => {
            format!("4\n{condition}\n{state}\n")
        }
        Err(refusal) => format!("{}\n", refusal.number()),
    }
}

/// The three lines of a call.
fn told(answer: Result<Counts, Refusal>, tree: &[u32], room: &[u32]) -> String {
    let (number, place) = answer.map_or_else(|r| (r.number(), r.place()), |_| (0, 0));
    let k = answer.unwrap_or_default();
    let counts = [k.left_breaks, k.right_breaks, k.whole_shifts, k.token_shifts, k.reductions];
    let words: Vec<String> = [number, place].iter().chain(&counts).map(u32::to_string).collect();
    format!("{}\n{}\n{}\n", words.join(" "), told_tree(answer.is_ok(), tree), told_room(room))
}

fn told_tree(accepted: bool, tree: &[u32]) -> String {
    let written = if accepted { 2 + 3 * tree[0] as usize } else { 0 };
    if !tree.get(written..).is_some_and(|rest| rest.iter().all(|&w| w == TREE)) {
        return "tree touched".to_string();
    }
    if !accepted {
        return "tree as lent".to_string();
    }
    tree[..written].iter().fold("tree".to_string(), |line, word| format!("{line} {word}"))
}

fn told_room(room: &[u32]) -> &'static str {
    if room.iter().all(|&w| w == ROOM) {
        return "room as lent";
    }
    let (first, rest) = room.split_at(room.len().min(ROOM_WORDS));
    let zero = first.len() == ROOM_WORDS
        && first.iter().all(|&w| w == 0)
        && rest.iter().all(|&w| w == ROOM);
    if zero {
        "room zero"
    } else {
        "room touched"
    }
}

/// What is printed for the next case; none where the input is malformed.
fn case(input: &mut Input) -> Option<String> {
    let kind = input.bytes(1)?[0];
    let table = input.table()?;
    match kind {
        b'T' => Some(checked(table, false)),
        b'C' => Some(checked(table, true)),
        b'R' => {
            let codes = input.words()?;
            let first = input.number()?;
            let (mut tree, mut room) = (input.lent(TREE)?, input.lent(ROOM)?);
            let answer = rows::read_afresh(table, &codes, first, &mut tree, &mut room);
            Some(told(answer, &tree, &room))
        }
        b'U' => {
            let (old, edits, put) = (input.words()?, input.words()?, input.words()?);
            let (mut tree, mut room) = (input.lent(TREE)?, input.lent(ROOM)?);
            let answer = rows::update_words(table, &old, &edits, &put, &mut tree, &mut room);
            Some(told(answer, &tree, &room))
        }
        b'E' => {
            let (old, edits, put) = (input.words()?, input.edits()?, input.words()?);
            let (mut tree, mut room) = (input.lent(TREE)?, input.lent(ROOM)?);
            let answer = rows::update(table, &old, &edits, &put, &mut tree, &mut room);
            Some(told(answer, &tree, &room))
        }
        _ => None,
    }
}

fn main() -> io::Result<()> {
    let mut given = Vec::new();
    io::stdin().read_to_end(&mut given)?;
    let mut input = Input(&given);
    let mut out = io::stdout().lock();
    while !input.0.is_empty() {
        match case(&mut input) {
            Some(lines) => out.write_all(lines.as_bytes())?,
            None => return out.write_all(b"input\n"),
        }
    }
    Ok(())
}
