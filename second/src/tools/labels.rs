//! What readings and updates show: what was lent, the text or the edits and the old tree, the answer.

use crate::answer::{Answer, MOST_NODES, MOST_TOKENS, ROOM_WORDS, TREE_WORDS};
use crate::sheet::Sheet;
use crate::tools::case::{Edited, Lent};
use crate::tree::OldTree;

/// A thing that a case may show, and whether it does.
pub type Label = (&'static str, bool);

/// A number so high that a whole tree does not fit above it.
const HIGH: u32 = u32::MAX - MOST_NODES as u32;

pub fn lent_labels(lent: Lent, times: u32) -> Vec<Label> {
    vec![
        ("tree to write one word short", lent.tree == TREE_WORDS - 1 && lent.room >= ROOM_WORDS),
        ("room one word short", lent.room == ROOM_WORDS - 1 && lent.tree >= TREE_WORDS),
        ("no words", lent.tree == 0 && lent.room == 0),
        ("tree to write and room longer", lent.tree > TREE_WORDS && lent.room > ROOM_WORDS),
        ("the call made more than once", times > 1),
    ]
}

pub fn reading_labels(
    sheet: &Sheet,
    codes: &[u32],
    first: u32,
    answer: &Answer,
    row: &[u32],
) -> Vec<Label> {
    let (number, place) = (answer.number, answer.place as usize);
    let wrong_code = codes.iter().any(|&code| !sheet.is_token(code));
    let too_many = codes.len() > MOST_TOKENS;
    let six = |zero: bool, wrong: bool, many: bool| {
        (first == 0, wrong_code, too_many) == (zero, wrong, many)
    };
    let nodes = row.first().map_or(0, |&count| count as usize);
    vec![
        ("6 for first number 0 alone", six(true, false, false)),
        ("6 for a code alone", six(false, true, false)),
        ("6 for code 0", codes.contains(&0)),
        ("6 for code T", codes.contains(&(sheet.terminals as u32))),
        ("6 for a code above 255", codes.iter().any(|&code| code > 255)),
        ("6 for 2,049 codes alone", six(false, false, true) && codes.len() == MOST_TOKENS + 1),
        ("2,048 codes, not 6", codes.len() == MOST_TOKENS && number != 6),
        ("no codes, accepted", number == 0 && codes.is_empty()),
        ("up to 20 nodes", (1..=20).contains(&nodes)),
        ("21 to 200 nodes", (21..=200).contains(&nodes)),
        ("201 to 2,000 nodes", (201..=2_000).contains(&nodes)),
        ("2,001 to 2,047 nodes", (2_001..MOST_NODES).contains(&nodes)),
        ("2,048 nodes", nodes == MOST_NODES),
        ("7 at 0", number == 7 && place == 0),
        ("7 within the text", number == 7 && 0 < place && place < codes.len()),
        ("7 at the end mark", number == 7 && place == codes.len() && place > 0),
        ("7 behind 1,000 tokens", number == 7 && place > 1_000),
        ("8", number == 8),
        ("9", number == 9),
        ("accepted, next number the highest", number == 0 && row[1] == u32::MAX),
        ("accepted, first number 1", number == 0 && first == 1),
        ("accepted, another first number", number == 0 && first > 1),
        ("7 or 8 where 9 might follow", (number == 7 || number == 8) && first > HIGH),
    ]
}

pub fn edit_labels(old: &OldTree, edited: &Edited) -> Vec<Label> {
    let records: Vec<&[u32]> = edited.edits.chunks_exact(3).collect();
    let count = records.len();
    let any = |test: &dyn Fn(&[u32]) -> bool| records.iter().any(|record| test(record));
    let pairs = |test: &dyn Fn(&[u32], &[u32]) -> bool| {
        records.windows(2).any(|pair| test(pair[0], pair[1]))
    };
    let tokens = old.token_nodes.len();
    let removed: u32 = records.iter().map(|record| record[1]).sum();
    let result = tokens - removed as usize + edited.put.len();
    vec![
        ("no edits", count == 0),
        ("one edit", count == 1),
        ("2 to 5 edits", (2..=5).contains(&count)),
        ("6 to 50 edits", (6..=50).contains(&count)),
        ("above 50 edits", count > 50),
        ("an edit of nothing", any(&|edit| edit[1] == 0 && edit[2] == 0)),
        ("only edits of nothing", count > 0 && removed == 0 && edited.put.is_empty()),
        ("an edit that only removes", any(&|edit| edit[1] > 0 && edit[2] == 0)),
        ("an edit that only puts in", any(&|edit| edit[1] == 0 && edit[2] > 0)),
        ("an edit that replaces", any(&|edit| edit[1] > 0 && edit[2] > 0)),
        (
            "two edits at one place that put in",
            pairs(&|one, two| one[0] == two[0] && one[2] > 0 && two[2] > 0),
        ),
        (
            "an edit where the one before ends",
            pairs(&|one, two| one[1] > 0 && one[0] + one[1] == two[0]),
        ),
        ("an edit before the text", any(&|edit| edit[0] == 0 && edit[2] > 0)),
        ("an edit behind the text", any(&|edit| edit[0] as usize == tokens && edit[2] > 0)),
        ("all removed", tokens > 0 && removed as usize == tokens),
        ("a text of no tokens results", result == 0),
        ("2,048 tokens result", result == MOST_TOKENS),
    ]
}

pub fn tree_labels(old: &OldTree, row: &[u32]) -> Vec<Label> {
    let nodes = old.nodes.len();
    let rising = old.numbers.windows(2).all(|pair| pair[0] < pair[1]);
    let highest = old.numbers.iter().copied().max().unwrap_or(0);
    vec![
        ("without tokens", old.token_nodes.is_empty()),
        ("up to 20 nodes", nodes <= 20),
        ("21 to 200 nodes", (21..=200).contains(&nodes)),
        ("201 to 2,000 nodes", (201..=2_000).contains(&nodes)),
        ("2,001 to 2,047 nodes", (2_001..MOST_NODES).contains(&nodes)),
        ("2,048 nodes", nodes == MOST_NODES),
        ("numbers rising", rising),
        ("numbers not rising", !rising),
        ("numbers of an earlier update", !rising && old.next_number as usize <= 20 * nodes),
        ("next number just above the highest", old.next_number - highest == 1),
        ("next number further above", old.next_number - highest > 1),
        ("next number near the end", old.next_number > HIGH),
        ("next number the highest", old.next_number == u32::MAX),
        ("words beyond the tree", row.len() > 2 + 3 * nodes),
    ]
}

pub fn updated_labels(old: &OldTree, answer: &Answer, new: &[u32]) -> Vec<Label> {
    let [left, right, whole, token, _] = answer.counts.in_order();
    let accepted = answer.number == 0;
    let nodes = new.first().map_or(0, |&count| count as usize);
    let kept = new.iter().skip(3).step_by(3).filter(|&&number| number < old.next_number).count();
    let tokens = new.iter().skip(2).step_by(3).filter(|&&kind| kind < 256).count();
    vec![
        ("left-breaks", left > 0),
        ("whole shifts", whole > 0),
        ("more right-breaks than whole shifts", right > whole),
        ("10 whole shifts or more", whole >= 10),
        ("whole shifts and token shifts", whole > 0 && token > 0),
        ("no whole shifts, old tokens kept", accepted && whole == 0 && kept > 0),
        ("all numbers kept", accepted && kept == nodes),
        ("no number kept", accepted && kept == 0),
        ("some numbers kept", accepted && 0 < kept && kept < nodes),
        ("a new tree without tokens", accepted && tokens == 0),
        ("2,001 nodes or more", nodes > 2_000),
        ("2,048 nodes", nodes == MOST_NODES),
        ("next number the highest", accepted && new[1] == u32::MAX),
        ("7 at 0", answer.number == 7 && answer.place == 0),
        ("7 elsewhere", answer.number == 7 && answer.place > 0),
        ("7 behind 500 tokens", answer.number == 7 && answer.place > 500),
        ("8", answer.number == 8),
        ("9", answer.number == 9),
    ]
}
