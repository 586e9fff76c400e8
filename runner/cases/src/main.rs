//! The runner of cases: fixed ones, long runs from a seed, the files of a folder; the proved calls compared with the second
//! program; the times of both.

use cases::builder::{Proved, Second};
use cases::case::Case;
use cases::families::slowest;
use cases::run::{against, cases, file, seeds, test, told, Tally};
use cases::time;
use std::hint::black_box;
use std::process::ExitCode;
use std::{env, fs, io};

const USAGE: &str = "usage: cases test | long SEED COUNT | files FOLDER
  | compare | compare-long SEED COUNT | compare-files FOLDER
  | time FOLDER [--instructions]";

/// How many seeds the fixed comparison takes.
const COMPARED: u64 = 512;

fn main() -> ExitCode {
    let given: Vec<String> = env::args().skip(1).collect();
    let words: Vec<&str> = given.iter().map(String::as_str).collect();
    let tally = match words[..] {
        ["test"] => test(&Second),
        ["long", seed, count] => match (seed.parse(), count.parse()) {
            (Ok(seed), Ok(count)) => long(seed, count),
            _ => return usage(),
        },
        ["files", folder] => match files(folder) {
            Ok(tally) => tally,
            Err(error) => return broken(folder, &error),
        },
        ["compare"] => compared(cases(1, COMPARED).map(Case::lean)),
        ["compare-long", seed, count] => match (seed.parse(), count.parse()) {
            (Ok(seed), Ok(count)) => compared(cases(seed, count).chain(slowest())),
            _ => return usage(),
        },
        ["compare-files", folder] => match texts_of(folder) {
            Ok(texts) => compared(texts.into_iter().map(|(name, text)| Case::of_text(&name, 1, text))),
            Err(error) => return broken(folder, &error),
        },
        ["time", folder] => match texts_of(folder) {
            Ok(texts) => {
                time::tables(texts);
                return ExitCode::SUCCESS;
            }
            Err(error) => return broken(folder, &error),
        },
        ["time", folder, "--instructions"] => match texts_of(folder) {
            Ok(texts) => {
                time::instructions(texts);
                return ExitCode::SUCCESS;
            }
            Err(error) => return broken(folder, &error),
        },
        ["once", builder, call, file] => match fs::read(file) {
            Ok(text) => {
                black_box(time::once(builder, call, text));
                return ExitCode::SUCCESS;
            }
            Err(error) => return broken(file, &error),
        },
        _ => return usage(),
    };
    println!("{}", tally.line());
    ExitCode::from(u8::from(tally.failed > 0))
}

fn usage() -> ExitCode {
    eprintln!("{USAGE}");
    ExitCode::from(2)
}

fn broken(folder: &str, error: &io::Error) -> ExitCode {
    eprintln!("{folder}: {error}");
    ExitCode::from(2)
}

fn long(seed: u64, count: u64) -> Tally {
    let mut tally = Tally::default();
    seeds(&mut tally, &Second, seed, count);
    tally
}

/// The files of a folder whose names end in `.cnf`, by name.
fn texts_of(folder: &str) -> io::Result<Vec<(String, Vec<u8>)>> {
    let mut texts = Vec::new();
    for entry in fs::read_dir(folder)? {
        let path = entry?.path();
        if path.extension().is_some_and(|end| end == "cnf") {
            let name = path.file_name().unwrap_or_default().to_string_lossy().into_owned();
            texts.push((name, fs::read(&path)?));
        }
    }
    texts.sort();
    Ok(texts)
}

fn files(folder: &str) -> io::Result<Tally> {
    let mut tally = Tally::default();
    for (name, text) in texts_of(folder)? {
        let line = file(&mut tally, &Second, &name, &text);
        println!("{name:24} {line}");
    }
    Ok(tally)
}

/// The proved calls compared with the second program.
fn compared(cases: impl Iterator<Item = Case>) -> Tally {
    let mut tally = against(&Proved, &Second, cases);
    told(&mut tally, &Proved, &Second);
    tally
}
