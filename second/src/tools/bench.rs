//! Timings of the library: checks, fresh readings and updates, the best of some rounds, in microseconds a call.

use std::io::{self, Write};
use std::time::Instant;

use crate::answer::{ROOM_WORDS, TREE_WORDS};
use crate::tools::trees::fresh_row;
use crate::{check, read_afresh, update, Check};

const ROUNDS: usize = 200;
const CALLS: usize = 10;

const M: u32 = 1;
const OPEN: u32 = 2;
const CLOSE: u32 = 3;

/// The tables that are timed.
pub struct Tables {
    pub house: Vec<u8>,
    pub expr: Vec<u8>,
    pub large: Vec<u8>,
}

/// Times everything and prints a line for each.
pub fn bench(tables: &Tables, output: &mut impl Write) -> io::Result<()> {
    writeln!(output, "{:<44} {:>7} {:>10}", "what", "nodes", "us/call")?;
    let mut buffers = Buffers { tree: vec![0; TREE_WORDS], room: vec![0; ROOM_WORDS] };
    bench_checks(tables, output)?;
    bench_readings(&tables.house, &mut buffers, output)?;
    bench_updates(&tables.house, &mut buffers, output)
}

fn bench_checks(tables: &Tables, output: &mut impl Write) -> io::Result<()> {
    let named = [("house", &tables.house), ("expr", &tables.expr), ("large", &tables.large)];
    for (name, table) in named {
        let time = best(|| assert_eq!(check(table), Check::Yes));
        let what = format!("check {name} ({} bytes)", table.len());
        writeln!(output, "{what:<44} {:>7} {time:>10.1}", "-")?;
    }
    Ok(())
}

fn bench_readings(house: &[u8], buffers: &mut Buffers, output: &mut impl Write) -> io::Result<()> {
    let texts = [
        ("682 m's", flat(682)),
        ("186 groups [ m m ]", grouped(186)),
        ("409 nested [ .. ]", nested(409)),
    ];
    for (name, text) in texts {
        let time = best(|| buffers.read(house, &text));
        let what = format!("read afresh {name}");
        writeln!(output, "{what:<44} {:>7} {time:>10.1}", buffers.tree[0])?;
    }
    Ok(())
}

fn bench_updates(house: &[u8], buffers: &mut Buffers, output: &mut impl Write) -> io::Result<()> {
    let texts =
        [("flat 680", flat(680)), ("grouped 185", grouped(185)), ("nested 408", nested(408))];
    for (name, text) in texts {
        let row = fresh_row(house, &text).expect("the house reads its own texts");
        for (kind, words, put) in edit_lists(&text) {
            let time = best(|| buffers.update(house, &row, &words, &put));
            let what = format!("update {name}, {kind}");
            writeln!(output, "{what:<44} {:>7} {time:>10.1}", buffers.tree[0])?;
        }
    }
    Ok(())
}

/// The least time of a call over the rounds, in microseconds.
fn best(mut call: impl FnMut()) -> f64 {
    let mut least = f64::INFINITY;
    for _ in 0..ROUNDS {
        let begin = Instant::now();
        (0..CALLS).for_each(|_| call());
        least = least.min(begin.elapsed().as_secs_f64() * 1e6 / CALLS as f64);
    }
    least
}

struct Buffers {
    tree: Vec<u32>,
    room: Vec<u32>,
}

impl Buffers {
    fn read(&mut self, table: &[u8], text: &[u32]) {
        let answer = read_afresh(table, text, 1, &mut self.tree, &mut self.room);
        assert_eq!(answer.number, 0);
    }

    fn update(&mut self, table: &[u8], row: &[u32], words: &[u32], put: &[u32]) {
        let answer = update(table, row, words, put, &mut self.tree, &mut self.room);
        assert_eq!(answer.number, 0);
    }
}

fn flat(count: usize) -> Vec<u32> {
    vec![M; count]
}

fn grouped(count: usize) -> Vec<u32> {
    [OPEN, M, M, CLOSE].repeat(count)
}

fn nested(count: usize) -> Vec<u32> {
    [vec![OPEN; count], vec![CLOSE; count]].concat()
}

/// No edit; an m put in at front, middle and end; 100 scattered tokens each replaced by its like.
fn edit_lists(text: &[u32]) -> Vec<(&'static str, Vec<u32>, Vec<u32>)> {
    let put_at = |place: usize| (vec![place as u32, 0, 1], vec![M]);
    let (front, front_put) = put_at(0);
    let (middle, middle_put) = put_at(text.len() / 2);
    let (end, end_put) = put_at(text.len());
    let places: Vec<usize> = (0..100).map(|at| at * text.len() / 100).collect();
    let scattered = places.iter().flat_map(|&place| [place as u32, 1, 1]).collect();
    let scattered_put = places.iter().map(|&place| text[place]).collect();
    vec![
        ("no edit", vec![], vec![]),
        ("one put in at front", front, front_put),
        ("one put in at middle", middle, middle_put),
        ("one put in at end", end, end_put),
        ("100 scattered edits", scattered, scattered_put),
    ]
}
