//! The program `second`: judge, cases, spread, vectors, expect, bench, and the small program of document 01.

use std::fs;
use std::io::{self, BufReader, BufWriter, Read, Write};
use std::path::{Path, PathBuf};
use std::process::ExitCode;

use second::small_program::lines_for;
use second::tools::bench::{bench, Tables};
use second::tools::cases::write_cases;
use second::tools::judge::judge_all;
use second::tools::spread::spread_of;
use second::tools::vectors::{vectors_of, Vector};

const USAGE: &str = "usage: second judge < CASES
       second cases SEED COUNT [--tables DIR]
       second spread < CASES
       second vectors FILE.jsonl
       second expect FILE.jsonl
       second bench --tables DIR
       second small < INPUT";

fn main() -> ExitCode {
    let arguments: Vec<String> = std::env::args().skip(1).collect();
    match run(&arguments) {
        Ok(()) => ExitCode::SUCCESS,
        // Whoever reads the output may stop early.
        Err(Failure::Io(error)) if error.kind() == io::ErrorKind::BrokenPipe => ExitCode::SUCCESS,
        Err(Failure::Io(error)) => failed(&error.to_string()),
        Err(Failure::Said(why)) => failed(&why),
    }
}

fn failed(why: &str) -> ExitCode {
    eprintln!("{why}");
    ExitCode::FAILURE
}

enum Failure {
    Io(io::Error),
    Said(String),
}

impl From<io::Error> for Failure {
    fn from(error: io::Error) -> Failure {
        Failure::Io(error)
    }
}

fn run(arguments: &[String]) -> Result<(), Failure> {
    let (folder, words) = split_folder(arguments);
    let mut output = BufWriter::with_capacity(1 << 16, io::stdout().lock());
    match (&words[..], folder) {
        (["judge"], None) => {
            let mut input = BufReader::with_capacity(1 << 16, io::stdin().lock());
            judge_all(&mut input, &mut output)?;
        }
        (["cases", seed, count], folder) => {
            let tables = folder.map_or(Ok(Vec::new()), |folder| tables_in(Path::new(folder)))?;
            write_cases(number(seed)?, number(count)? as usize, tables, &mut output)?;
        }
        (["spread"], None) => {
            let mut input = BufReader::with_capacity(1 << 16, io::stdin().lock());
            spread_of(&mut input, &mut output)?;
        }
        (["vectors", file], None) => {
            for vector in load(file)? {
                vector.case.write(&mut output)?;
            }
        }
        (["expect", file], None) => {
            for vector in load(file)? {
                output.write_all(vector.expected.as_bytes())?;
            }
        }
        (["bench"], Some(folder)) => bench(&bench_tables(Path::new(folder))?, &mut output)?,
        (["small"], None) => {
            let mut input = Vec::new();
            io::stdin().lock().read_to_end(&mut input)?;
            output.write_all(lines_for(&input).as_bytes())?;
        }
        _ => return Err(Failure::Said(USAGE.to_string())),
    }
    output.flush()?;
    Ok(())
}

/// The folder behind `--tables`, if there is one, and the other words.
fn split_folder(arguments: &[String]) -> (Option<&str>, Vec<&str>) {
    let mut words: Vec<&str> = arguments.iter().map(String::as_str).collect();
    let at = words.iter().position(|&word| word == "--tables");
    let folder = at.filter(|&at| at + 1 < words.len()).map(|at| {
        words.remove(at);
        words.remove(at)
    });
    (folder, words)
}

fn number(text: &str) -> Result<u64, Failure> {
    text.parse().map_err(|_| Failure::Said(format!("{text} is not a number")))
}

fn load(file: &str) -> Result<Vec<Vector>, Failure> {
    vectors_of(&fs::read_to_string(file)?).map_err(|why| Failure::Said(format!("{file}: {why}")))
}

/// All `*.lrt` files of a folder, by name.
fn tables_in(folder: &Path) -> Result<Vec<Vec<u8>>, Failure> {
    let entries = fs::read_dir(folder)?.collect::<Result<Vec<_>, _>>()?;
    let mut paths: Vec<PathBuf> = entries.iter().map(|entry| entry.path()).collect();
    paths.retain(|path| path.extension().is_some_and(|extension| extension == "lrt"));
    paths.sort();
    let tables = paths.iter().map(fs::read).collect::<Result<Vec<_>, _>>()?;
    Ok(tables)
}

fn bench_tables(folder: &Path) -> Result<Tables, Failure> {
    let read = |name: &str| fs::read(folder.join(name));
    Ok(Tables { house: read("house.lrt")?, expr: read("expr.lrt")?, large: read("large.lrt")? })
}
