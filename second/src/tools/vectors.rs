//! Vector files: each line of JSON as a case, with the lines that a right judge prints for it.

use crate::answer::{Answer, Counts};
use crate::tools::case::{Case, Edited, Lent};
use crate::tools::json::Json;
use crate::tools::judge::{three_lines, written_line};

/// One line of a vector file.
pub struct Vector {
    pub case: Case,
    /// What a right judge prints.
    pub expected: String,
    /// For a table with answer 4, all broken state conditions.
    pub conditions: Option<Vec<u8>>,
    /// The small program's input and output, where the line carries them.
    pub program: Option<(Vec<u8>, String)>,
}

/// All vectors of a file's text.
pub fn vectors_of(text: &str) -> Result<Vec<Vector>, String> {
    let lines = text.lines().enumerate().filter(|(_, line)| !line.trim().is_empty());
    let vectors = lines.map(|(at, line)| {
        let json = Json::parse(line).map_err(|why| format!("line {}: {why}", at + 1))?;
        vector_of(&json).ok_or_else(|| format!("line {}: not a vector", at + 1))
    });
    vectors.collect()
}

fn vector_of(json: &Json) -> Option<Vector> {
    let expect = json.field("expect")?;
    Some(Vector {
        case: case_of(json)?,
        expected: expected_lines(json.field("kind")?.text()?, expect)?,
        conditions: conditions_of(expect)?,
        program: program_of(json)?,
    })
}

fn case_of(json: &Json) -> Option<Case> {
    let table = bytes_of(json.field("table")?)?;
    match json.field("kind")?.text()? {
        "table" => Some(Case::Table { table }),
        "read" => Some(Case::Read {
            table,
            codes: words_of(json.field("codes")?)?,
            first: *words_of(json.field("first")?)?.first()?,
            lent: lent_of(json)?,
            times: 1,
        }),
        "update" => Some(Case::Update {
            edited: Edited {
                table,
                row: words_of(json.field("row")?)?,
                edits: words_of(json.field("edits")?)?,
                put: words_of(json.field("codes")?)?,
            },
            lent: lent_of(json)?,
            times: 1,
        }),
        _ => None,
    }
}

fn lent_of(json: &Json) -> Option<Lent> {
    let tree = json.field("tree_len")?.number()? as usize;
    let room = json.field("room_len")?.number()? as usize;
    Some(Lent { tree, room })
}

fn expected_lines(kind: &str, expect: &Json) -> Option<String> {
    let number = expect.field("no")?.number()?;
    if kind == "table" {
        return Some(format!("{number}\n"));
    }
    let place = expect.field("place")?.number()?;
    let answer = Answer { number, place, counts: counts_of(expect.field("counts")?)? };
    let tree = match expect.field("tree")? {
        Json::Null => "tree as lent".to_string(),
        words => written_line(&words_of(words)?),
    };
    let room = match expect.field("room")?.text()? {
        "zero" => "room zero",
        "lent" => "room as lent",
        _ => return None,
    };
    Some(three_lines(&answer, &tree, room))
}

fn counts_of(json: &Json) -> Option<Counts> {
    let counts: Option<Vec<u32>> = json.row()?.iter().map(Json::number).collect();
    let [left_breaks, right_breaks, whole_shifts, token_shifts, reductions] =
        counts?.try_into().ok()?;
    Some(Counts { left_breaks, right_breaks, whole_shifts, token_shifts, reductions })
}

/// The inner `None` is for lines without conditions, the outer for wrong ones.
fn conditions_of(expect: &Json) -> Option<Option<Vec<u8>>> {
    let Some(row) = expect.field("conditions") else {
        return Some(None);
    };
    let numbers = row.row()?.iter().map(|number| number.number().map(|number| number as u8));
    let numbers: Option<Vec<u8>> = numbers.collect();
    Some(Some(numbers?))
}

/// The inner `None` is for lines without the small program's input.
fn program_of(json: &Json) -> Option<Option<(Vec<u8>, String)>> {
    let Some(input) = json.field("stdin") else {
        return Some(None);
    };
    let output = json.field("stdout")?.text()?;
    Some(Some((bytes_of(input)?, output.to_string())))
}

fn bytes_of(json: &Json) -> Option<Vec<u8>> {
    let digits = json.text()?.as_bytes();
    if digits.len() % 2 != 0 {
        return None;
    }
    let digit = |byte: u8| (byte as char).to_digit(16);
    let pairs = digits.chunks_exact(2);
    pairs.map(|pair| Some((digit(pair[0])? * 16 + digit(pair[1])?) as u8)).collect()
}

fn words_of(json: &Json) -> Option<Vec<u32>> {
    let bytes = bytes_of(json)?;
    if bytes.len() % 4 != 0 {
        return None;
    }
    let words = bytes.chunks_exact(4);
    Some(words.map(|word| u32::from_be_bytes([word[0], word[1], word[2], word[3]])).collect())
}
