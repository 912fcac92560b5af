//! Every vector of the folder named by VECTORS agrees; skipped with a message where it is not set.

use std::path::PathBuf;

use second::small_program::lines_for;
use second::tools::case::Case;
use second::tools::judge::Judge;
use second::tools::vectors::{vectors_of, Vector};
use second::{check, Check};

fn load(name: &str) -> Option<Vec<Vector>> {
    let Some(folder) = std::env::var_os("VECTORS") else {
        eprintln!("VECTORS is not set: {name} skipped");
        return None;
    };
    let path = PathBuf::from(folder).join(name);
    let text = std::fs::read_to_string(&path).expect("the vector file can be read");
    Some(vectors_of(&text).expect("the vector file has the form of its README"))
}

/// Compares the judge's lines, the broken conditions and the small program's output.
fn agree(name: &str) {
    let Some(vectors) = load(name) else { return };
    let mut judge = Judge::new();
    let mut wrong = Vec::new();
    for (line, vector) in vectors.iter().enumerate() {
        let lines = judge.lines_for(&vector.case) == vector.expected;
        if !lines || !conditions_agree(vector) || !program_agrees(vector) {
            wrong.push(line + 1);
        }
    }
    println!("{name}: {} of {} agree", vectors.len() - wrong.len(), vectors.len());
    assert!(wrong.is_empty(), "{name}: lines that disagree: {wrong:?}");
}

fn conditions_agree(vector: &Vector) -> bool {
    match (&vector.case, &vector.conditions) {
        (Case::Table { table }, Some(conditions)) => {
            check(table) == Check::StatesWrong(conditions.clone())
        }
        _ => true,
    }
}

fn program_agrees(vector: &Vector) -> bool {
    match &vector.program {
        Some((input, output)) => lines_for(input) == *output,
        None => true,
    }
}

#[test]
fn tables_agree() {
    agree("table.jsonl");
}

#[test]
fn readings_agree() {
    agree("read.jsonl");
}

#[test]
fn updates_agree() {
    agree("update.jsonl");
}
