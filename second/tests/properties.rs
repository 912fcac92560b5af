//! Made cases compared with the definitions written out, and updates compared with fresh readings.

mod common;
mod naive;

use std::collections::BTreeMap;

use common::{read, updated, Told};
use second::check::accepted_sheet;
use second::conditions;
use second::edits::{edits_in_rule, reading_list, Edit};
use second::grammar::rules_hold;
use second::sheet::{read_sheet, Sheet};
use second::tools::case::{Case, Edited};
use second::tools::cases::CaseMaker;
use second::tools::faults::{edit_faults, grammar_faults, layout_faults, tree_faults};
use second::tools::grammars::random_plan;
use second::tools::judge::{judge_all, Judge};
use second::tools::random::Random;
use second::tools::vary::{copy_to_limits, enlarge_sets};
use second::tree::{tree_in_order, Node, OldTree};
use second::{check, Check};

/// Made cases; the folder's tables are among them where TABLES is set.
fn made_cases(seed: u64, count: usize) -> Vec<Case> {
    let mut tables = vec![common::house()];
    if let Some(folder) = std::env::var_os("TABLES") {
        for entry in std::fs::read_dir(folder).expect("the folder can be read").flatten() {
            tables.extend(std::fs::read(entry.path()).ok());
        }
    }
    let mut maker = CaseMaker::new(seed, tables);
    (0..count).map(|_| maker.case()).collect()
}

#[test]
fn made_tables_are_accepted() {
    let mut random = Random::new(5);
    for _ in 0..2_000 {
        let table = random_plan(&mut random).bytes().expect("a plan that fits");
        assert_eq!(check(&table), Check::Yes);
    }
}

#[test]
fn tables_with_larger_sets_are_accepted() {
    let mut random = Random::new(6);
    let mut larger = 0;
    for _ in 0..500 {
        let plan = random_plan(&mut random);
        let mut enlarged = plan.clone();
        enlarge_sets(&mut enlarged, &mut random);
        larger += usize::from(enlarged != plan);
        assert_eq!(check(&enlarged.bytes().expect("no conflict")), Check::Yes);
    }
    println!("larger sets in {larger} of 500 tables");
    assert!(larger > 50);
}

#[test]
fn tables_at_the_limits() {
    let mut random = Random::new(7);
    let mut met = [0; 2];
    for _ in 0..400 {
        let mut plan = random_plan(&mut random);
        copy_to_limits(&mut plan, &mut random);
        let actions = plan.actions().expect("no conflict");
        let too_many = plan.item_count() > 2400;
        let expected = if too_many { Check::LayoutWrong } else { Check::Yes };
        assert_eq!(check(&plan.bytes_with(&actions)), expected);
        met[usize::from(too_many)] += usize::from(plan.item_count() >= 2400);
    }
    println!("2,400 items: {}, 2,401 items: {}", met[0], met[1]);
    assert!(met[0] > 0 && met[1] > 0);
}

#[test]
fn conditions_are_those_written_out() {
    let mut met: BTreeMap<Vec<u8>, usize> = BTreeMap::new();
    for case in made_cases(11, 9_000) {
        let Case::Table { table } = case else {
            continue;
        };
        let Some(sheet) = read_sheet(&table).filter(rules_hold) else {
            continue;
        };
        if table.len() > 3_000 {
            continue;
        }
        let broken: Vec<u8> = conditions::broken(&sheet).collect();
        assert_eq!(broken, naive::broken_conditions(&sheet));
        *met.entry(broken).or_default() += 1;
    }
    println!("broken conditions met: {met:?}");
    for condition in 1..=7 {
        assert!(met.keys().any(|broken| broken.contains(&condition)));
    }
}

/// An update with all that its rules ask for.
struct Ruled {
    table: Vec<u8>,
    sheet: Sheet,
    row: Vec<u32>,
    old: OldTree,
    words: Vec<u32>,
    edits: Vec<Edit>,
    put: Vec<u32>,
}

fn ruled(case: Case) -> Option<Ruled> {
    let Case::Update { edited: Edited { table, row, edits: words, put }, .. } = case else {
        return None;
    };
    let sheet = accepted_sheet(&table).ok()?;
    let old = tree_in_order(&sheet, &row)?;
    let edits = edits_in_rule(&sheet, old.token_nodes.len(), &words, &put)?;
    Some(Ruled { table, sheet, row, old, words, edits, put })
}

impl Ruled {
    fn new_codes(&self) -> Vec<u32> {
        let text = naive::new_text(self.old.token_nodes.len(), &self.edits, &self.put);
        let code = |token: Result<usize, u32>| match token {
            Ok(place) => self.old.nodes[self.old.token_nodes[place]].kind,
            Err(code) => code,
        };
        text.into_iter().map(code).collect()
    }

    /// The new tree's nodes by the row written, each token with the old token that it is.
    fn new_nodes(&self, row: &[u32]) -> Vec<Node> {
        let mut nodes = tree_in_order(&self.sheet, row).expect("a tree in order").nodes;
        let text = naive::new_text(self.old.token_nodes.len(), &self.edits, &self.put);
        let tokens = nodes.iter_mut().filter(|node| node.is_token());
        for (node, token) in tokens.zip(text) {
            node.old = token.ok().map(|place| self.old.token_nodes[place] as u32);
        }
        nodes
    }
}

#[test]
fn updates_are_fresh_readings_with_kept_numbers() {
    let mut met: BTreeMap<u32, usize> = BTreeMap::new();
    for ruled in made_cases(12, 12_000).into_iter().filter_map(ruled) {
        let answer = updated(&ruled.table, &ruled.row, &ruled.words, &ruled.put);
        let fresh = read(&ruled.table, &ruled.new_codes(), 1);
        *met.entry(answer.0).or_default() += 1;
        match answer.0 {
            0 => compare_trees(&ruled, &answer, &fresh),
            9 => assert_eq!(fresh.0, 0),
            _ => assert_eq!((answer.0, answer.1), (fresh.0, fresh.1)),
        }
    }
    println!("answers met: {met:?}");
    assert!([0, 7, 8, 9].iter().all(|number| met.contains_key(number)));
}

fn compare_trees(ruled: &Ruled, answer: &Told, fresh: &Told) {
    let (new, old) = (&answer.3, &ruled.old);
    let shape = |row: &[u32]| -> Vec<(u32, u32)> {
        row[2..].chunks_exact(3).map(|node| (node[0], node[2])).collect()
    };
    assert_eq!(shape(new), shape(&fresh.3));
    if new[0] as usize * old.nodes.len() > 40_000 {
        return;
    }
    let mut next = old.next_number;
    let kept = naive::kept_numbers(&ruled.new_nodes(new), old);
    let expected = kept.into_iter().map(|number| {
        number.unwrap_or_else(|| {
            next += 1;
            next - 1
        })
    });
    let expected: Vec<u32> = expected.collect();
    assert_eq!((common::numbers(new), new[1]), (expected, next));
}

#[test]
fn reading_lists_are_those_written_out() {
    for ruled in made_cases(13, 6_000).into_iter().filter_map(ruled) {
        if ruled.old.nodes.len() > 150 {
            continue;
        }
        let mut list = reading_list(&ruled.old, &ruled.edits, &ruled.put);
        list.reverse();
        assert_eq!(list, naive::reading_list(&ruled.old, &ruled.edits, &ruled.put));
    }
}

#[test]
fn faults_are_found_where_the_library_refuses() {
    let mut met = [0; 4];
    for case in made_cases(15, 9_000) {
        let (table, edited) = match case {
            Case::Table { table } | Case::Read { table, .. } => (table, None),
            Case::Update { edited, .. } | Case::List { edited } => {
                (edited.table.clone(), Some(edited))
            }
        };
        let Some(sheet) = read_sheet(&table) else {
            met[0] += 1;
            assert_ne!(layout_faults(&table).found, 0);
            continue;
        };
        assert_eq!(layout_faults(&table).found, 0);
        assert_eq!(grammar_faults(&sheet).found == 0, rules_hold(&sheet));
        met[1] += usize::from(!rules_hold(&sheet));
        let Some(Edited { row, edits, put, .. }) = edited.filter(|_| rules_hold(&sheet)) else {
            continue;
        };
        let old = tree_in_order(&sheet, &row);
        assert_eq!(tree_faults(&sheet, &row).found == 0, old.is_some());
        let Some(old) = old else {
            met[2] += 1;
            continue;
        };
        let tokens = old.token_nodes.len();
        let right = edits_in_rule(&sheet, tokens, &edits, &put).is_some();
        assert_eq!(edit_faults(sheet.terminals, tokens, &edits, &put).found == 0, right);
        met[3] += usize::from(!right);
    }
    println!("refused for layout, grammar, tree, edits: {met:?}");
    assert!(met.iter().all(|&count| count > 50));
}

#[test]
fn the_judge_says_input_where_it_is_malformed() {
    let judged = |input: &[u8]| {
        let mut output = Vec::new();
        judge_all(&mut &input[..], &mut output).expect("a row of bytes can be written");
        String::from_utf8(output).expect("plain letters")
    };
    let mut right = Vec::new();
    Case::Table { table: common::house() }.write(&mut right).expect("a row of bytes");
    assert_eq!(judged(&[]), "");
    assert_eq!(judged(&right), "0\n");
    assert_eq!(judged(&[right.clone(), right.clone()].concat()), "0\n0\n");
    assert_eq!(judged(&[right.clone(), b"X".to_vec()].concat()), "0\ninput\n");
    assert_eq!(judged(&right[..right.len() - 1]), "input\n");
    assert_eq!(judged(b"T\x00\x01\x01\xd1"), "input\n");
}

#[test]
fn made_cases_come_again_and_are_within_the_limits() {
    let (cases, again) = (made_cases(14, 1_500), made_cases(14, 1_500));
    let (mut judge, mut bytes, mut lines) = (Judge::new(), Vec::new(), String::new());
    for (case, same) in cases.iter().zip(&again) {
        assert_eq!(case, same);
        case.write(&mut bytes).expect("a row of bytes can be written");
        lines.push_str(&judge.lines_for(case));
    }
    let mut output = Vec::new();
    judge_all(&mut &bytes[..], &mut output).expect("a row of bytes can be written");
    assert_eq!(output, lines.as_bytes());
}
