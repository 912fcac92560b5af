//! The worked examples of document 01, and those that show how its ambiguous places are read.

mod common;

use common::*;
use second::sheet::read_sheet;
use second::small_program::lines_for;
use second::tools::plan::{production, Grammar, Plan};
use second::{check, Check};

const NONE: [u32; 5] = [0; 5];

#[test]
fn the_house_table() {
    let table = house();
    assert_eq!(table.len(), 320);
    assert_eq!(table[5..9], [4, 3, 5, 7]);
    assert_eq!(check(&table), Check::Yes);
    assert_eq!(check(&canonical_table(&house_grammar())), Check::Yes);
}

#[test]
fn default_reductions_fail_5() {
    let plan = Plan::of_sheet(&read_sheet(&house()).expect("a sheet"));
    let mut actions = plan.actions().expect("no conflict");
    for row in actions.iter_mut().filter(|row| row.contains(&513)) {
        row.iter_mut().filter(|word| **word == 0).for_each(|word| *word = 513);
    }
    assert_eq!(check(&plan.bytes_with(&actions)), Check::StatesWrong(vec![5]));
}

#[test]
fn made_tables_are_those_of_the_folder() {
    let Some(folder) = std::env::var_os("TABLES") else {
        eprintln!("TABLES is not set: comparison with its tables skipped");
        return;
    };
    let folder = std::path::PathBuf::from(folder);
    let load = |name: &str| std::fs::read(folder.join(name)).expect("the table can be read");
    assert_eq!(house(), load("house.lrt"));
    assert_eq!(canonical_table(&house_grammar()), load("house.canonical.lrt"));
}

#[test]
fn fresh_readings() {
    let table = house();
    let nothing = vec![1, 2, 257, 1, 1];
    let one = vec![4, 5, 257, 1, 1, 1, 2, 1, 259, 3, 2, 258, 4, 4];
    assert_eq!(read(&table, &[], 1), (0, 0, [0, 0, 0, 0, 1], nothing));
    assert_eq!(read(&table, &[M], 1), (0, 0, [0, 0, 0, 1, 3], one));
    assert_eq!(row(&table, &[M, M])[..2], [7, 8]);
    let brackets = row(&table, &[OPEN, CLOSE]);
    assert_eq!(brackets[..2], [6, 7]);
    assert_eq!(brackets[2 + 3 * 4..][..2], [260, 5]);
    assert_eq!(read(&table, &[CLOSE], 1), (7, 0, NONE, vec![]));
    assert_eq!(read(&table, &[OPEN, M], 1), (7, 2, NONE, vec![]));
}

#[test]
fn updates() {
    let table = house();
    let one = row(&table, &[M]);
    assert_eq!(updated(&table, &one, &[], &[]), (0, 0, [1, 1, 1, 0, 3], one.clone()));
    let (number, _, counts, two) = updated(&table, &one, &[1, 0, 1], &[M]);
    assert_eq!((number, counts), (0, [1, 1, 1, 1, 5]));
    assert_eq!(two, row(&table, &[M, M]));
    let second = updated(&table, &two, &[0, 1, 0], &[]).3;
    assert_eq!(second, [4, 10, 257, 8, 1, 1, 5, 1, 259, 6, 2, 258, 9, 4]);
    let replaced = updated(&table, &one, &[0, 1, 1], &[M]).3;
    assert_eq!((numbers(&replaced), replaced[1]), (vec![5, 6, 7, 8], 9));
    let brackets = row(&table, &[OPEN, CLOSE]);
    let inside = updated(&table, &brackets, &[1, 0, 1], &[M]).3;
    assert_eq!((numbers(&inside), inside[1]), (vec![7, 2, 8, 9, 10, 11, 4, 12, 13], 14));
}

#[test]
fn room_for_nodes() {
    let table = house();
    let text = |count: usize, more: &[u32]| [vec![M; count], more.to_vec()].concat();
    assert_eq!(read(&table, &text(682, &[]), 1).3[0], 2047);
    assert_eq!(read(&table, &text(683, &[]), 1).0, 8);
    let full = text(679, &[OPEN, CLOSE, OPEN, CLOSE]);
    assert_eq!(read(&table, &full, 1).3[0], 2048);
    assert_eq!(read(&table, &text(681, &[OPEN, CLOSE]), 1).0, 8);
    assert_eq!(read(&table, &text(682, &[CLOSE]), 1), (7, 682, NONE, vec![]));
    assert_eq!(read(&table, &text(683, &[CLOSE]), 1).0, 8);
    let canonical = canonical_table(&house_grammar());
    assert_eq!(read(&canonical, &text(683, &[CLOSE]), 1), (7, 683, NONE, vec![]));
    assert_eq!(read(&table, &text(2048, &[]), 1).0, 8);
    assert_eq!(read(&table, &text(2049, &[]), 1).0, 6);
}

#[test]
fn the_end_of_the_numbers() {
    let table = house();
    assert_eq!(read(&table, &[M], 4_294_967_291).0, 0);
    assert_eq!(read(&table, &[M], 4_294_967_292).0, 9);
    assert_eq!(read(&table, &[], 4_294_967_294).3[1], 4_294_967_295);
    assert_eq!(read(&table, &[], 4_294_967_295).0, 9);
    assert_eq!(read(&table, &[], 0).0, 6);
    assert_eq!(read(&table, &[CLOSE], 4_294_967_295), (7, 0, NONE, vec![]));
    let mut old = row(&table, &[M]);
    old[1] = 4_294_967_292;
    assert_eq!(updated(&table, &old, &[1, 0, 1], &[M]).3[1], 4_294_967_295);
    old[1] = 4_294_967_293;
    assert_eq!(updated(&table, &old, &[1, 0, 1], &[M]).0, 9);
    old[1] = 4_294_967_295;
    assert_eq!(updated(&table, &old, &[], &[]).3, old);
}

#[test]
fn edits_and_clean_pieces() {
    let table = house();
    let (one, two) = (row(&table, &[M]), row(&table, &[M, M]));
    let front = updated(&table, &one, &[0, 0, 1], &[M]);
    assert_eq!((front.2, numbers(&front.3)), ([1, 1, 1, 1, 5], vec![5, 6, 7, 8, 2, 3, 9]));
    assert_eq!(updated(&table, &two, &[1, 1, 0, 1, 0, 1], &[M]).0, 6);
    let parted = updated(&table, &two, &[1, 1, 0, 2, 0, 1], &[M]);
    assert_eq!(parted, updated(&table, &two, &[1, 1, 1], &[M]));
    let three = row(&table, &[OPEN, M, CLOSE]);
    assert_eq!(updated(&table, &three, &[1, 0, 0], &[]), updated(&table, &three, &[], &[]));
    assert_eq!(updated(&table, &two, &[4_294_967_295, 2, 0], &[]).0, 6);
}

#[test]
fn kept_numbers() {
    let table = house();
    let (nothing, one, two) = (row(&table, &[]), row(&table, &[M]), row(&table, &[M, M]));
    assert_eq!(updated(&table, &one, &[0, 1, 0], &[]).3, [1, 6, 257, 5, 1]);
    let grown = updated(&table, &nothing, &[0, 0, 1], &[M]).3;
    assert_eq!((numbers(&grown), grown[1]), (vec![2, 3, 4, 5], 6));
    assert_eq!(updated(&table, &nothing, &[], &[]).3, nothing);
    let inner = updated(&table, &two, &[1, 1, 0], &[]).3;
    assert_eq!((numbers(&inner), inner[1]), (vec![1, 2, 3, 4], 8));
}

#[test]
fn a_piece_without_tokens_is_one_right_break() {
    let grammar = Grammar {
        terminals: 2,
        nonterminals: 5,
        productions: vec![
            production(0, &[129]),
            production(1, &[1, 130]),
            production(2, &[131, 132]),
            production(3, &[]),
            production(4, &[]),
        ],
    };
    let table = merged_table(&grammar);
    let old = row(&table, &[1]);
    assert_eq!(updated(&table, &old, &[], &[]).2, [0, 2, 1, 0, 4]);
}

#[test]
fn room_is_judged_after_right_breaks() {
    let table = canonical_table(&house_grammar());
    let text = [vec![OPEN], vec![M; 677], vec![OPEN, CLOSE, OPEN, CLOSE, CLOSE]].concat();
    let old = row(&table, &text);
    assert_eq!(old[0], 2047);
    let edits = [0, 0, 1, 683, 0, 1];
    assert_eq!(updated(&table, &old, &edits, &[M, CLOSE]), (7, 684, NONE, vec![]));
    assert_eq!(updated(&house(), &row(&house(), &text), &edits, &[M, CLOSE]).0, 8);
}

#[test]
fn the_small_program() {
    let table = house();
    let input = |codes: &[u8], first: u32| {
        let mut bytes = (table.len() as u16).to_be_bytes().to_vec();
        bytes.extend(&table);
        bytes.extend((codes.len() as u16).to_be_bytes());
        bytes.extend(codes);
        bytes.extend(first.to_be_bytes());
        bytes
    };
    assert_eq!(lines_for(&input(&[1], 1)), "ok 4 5\n257 1 1\n1 2 1\n259 3 2\n258 4 4\n");
    assert_eq!(lines_for(&input(&[2, 1], 1)), "no 7 2\n");
    assert_eq!(lines_for(&input(&[1; 2049], 1)), "no 6 0\n");
    let whole = input(&[1], 1);
    assert_eq!(lines_for(&whole[..whole.len() - 1]), "no 0 0\n");
    assert_eq!(lines_for(&[whole, vec![0]].concat()), "no 0 0\n");
    assert_eq!(lines_for(&[]), "no 0 0\n");
    assert_eq!(lines_for(&[0, 0, 0, 0, 0, 0, 0, 1]), "no 2 0\n");
}
