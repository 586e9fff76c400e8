//! How long each call takes, in nanoseconds: the proved calls beside the second program.
//!
//! A call is made again and again for a fifth of a second. Of one that takes less than a millisecond the least time is
//! shown: what else the machine does only adds to it. Of a longer one the mean is, and only of the time on a processor. A
//! call that only one of the two has is left out.

use crate::builder::{Book, Builder, Call, Numbers, Proved, Second};
use crate::case::{text_of, Case, Start};
use crate::yards::{self, Order, Yard};
use std::hint::black_box;
use std::process::Command;
use std::time::{Duration, Instant};

/// The calls that are timed.
const STEPS: [Call; 8] =
    [Call::Read, Call::Check, Call::Write, Call::Settle, Call::Pin, Call::Build, Call::Fill, Call::Ask];

/// How long a call is made again and again.
const AGAIN: Duration = Duration::from_millis(200);

/// Of calls that take longer than this the mean time on a processor is shown.
const SHORT: Duration = Duration::from_millis(1);

/// Calls that take longer than this are not counted by valgrind, which takes some fifty times as long.
const LONG: Duration = Duration::from_secs(1);

/// How many files of a folder are timed: the largest.
const FILES: usize = 10;

/// What the calls are timed on.
struct Input {
    name: String,
    n: u32,
    table: Vec<i32>,
    text: Vec<u8>,
}

impl Input {
    fn of_table(name: &str, n: u32, table: Vec<i32>) -> Input {
        let text = text_of(n, &table).into_bytes();
        Input { name: name.to_string(), n, table, text }
    }
}

/// The largest files of a folder that are read, by entries, and the worst yards.
fn inputs(texts: Vec<(String, Vec<u8>)>) -> Vec<Input> {
    let mut files = Vec::new();
    for (name, text) in texts {
        let mut row = vec![0; 16_384];
        let read = second::read(&text, &mut row);
        if read.is_accepted() {
            row.truncate(read.second);
            files.push(Input { name, n: read.first as u32, table: row, text });
        }
    }
    files.sort_by_key(|input| std::cmp::Reverse(input.table.len()));
    files.truncate(FILES);
    let yards = worst().into_iter().filter_map(|yard| match yard.case.start {
        Start::Table { n, table } => {
            let Case { family, seed, .. } = yard.case;
            // A planted yard is told by its seed alone.
            let name = if family == "planted" { format!("{family} {seed}") } else { family };
            Some(Input::of_table(&name, n, table))
        }
        Start::Text(_) => None,
    });
    files.into_iter().chain(yards).collect()
}

/// The memory that the calls are lent.
struct Memory {
    row: Vec<i32>,
    bytes: Vec<u8>,
    stands: Vec<u16>,
    values: Vec<u8>,
}

impl Memory {
    fn new() -> Memory {
        Memory { row: vec![0; 16_384], bytes: vec![0; 200_000], stands: vec![0; 1_025], values: vec![1; 1_024] }
    }
}

/// One call.
#[inline(never)]
fn measured(builder: &dyn Builder, call: Call, input: &Input, memory: &mut Memory) -> Numbers {
    let Input { n, table, text, .. } = input;
    let Memory { row, bytes, stands, values } = memory;
    let book = &Book::EMPTY;
    match call {
        Call::Read => builder.read(text, row),
        Call::Check => builder.check(*n, table),
        Call::Write => builder.write(*n, table, bytes),
        Call::Settle => builder.settle(*n, table, row, book, stands),
        Call::Pin => builder.pin(*n, table, row, &mut Book::EMPTY.clone(), *n as i32),
        Call::Build => builder.build(*n, table, row, book, bytes),
        Call::Fill => builder.fill(*n, table, row, book, values, bytes),
        Call::Ask => builder.ask(*n, table, row, book, values, *n),
        Call::LookUp | Call::TakeBack | Call::Program | Call::Run => Numbers::accepted(0, 0),
    }
}

/// How long this thread was on a processor: to some milliseconds, where the system says so.
fn on_processor() -> Option<Duration> {
    let said = std::fs::read_to_string("/proc/thread-self/schedstat").ok()?;
    Some(Duration::from_nanos(said.split(' ').next()?.parse().ok()?))
}

/// The time of a call, in nanoseconds.
fn nanoseconds<T>(mut call: impl FnMut() -> T) -> u128 {
    let (began, before) = (Instant::now(), on_processor());
    // How long all calls took so far.
    let so_far = || match (before, on_processor()) {
        (Some(before), Some(now)) => now - before,
        _ => began.elapsed(),
    };
    let (mut least, mut calls) = (Duration::MAX, 0);
    while calls == 0 || (if least < SHORT { began.elapsed() } else { so_far() }) < AGAIN {
        let start = Instant::now();
        black_box(call());
        least = least.min(start.elapsed());
        calls += 1;
    }
    match least < SHORT {
        true => least.as_nanos(),
        false => so_far().as_nanos() / calls,
    }
}

fn time(builder: &dyn Builder, call: Call, input: &Input) -> u128 {
    let memory = &mut Memory::new();
    nanoseconds(|| measured(builder, call, input, memory))
}

/// The table check once more, as a loop with nothing around it.
#[inline(never)]
fn plain_loop(n: u32, table: &[i32]) -> (u32, usize) {
    if n > 1_024 || table.len() > 16_384 {
        return (2, 0);
    }
    let (mut zeros, mut literals) = (0, 0);
    for place in 0..table.len() {
        let entry = table[place];
        if entry == 0 {
            zeros += 1;
            literals = 0;
            if zeros > 4_096 {
                return (2, place);
            }
        } else {
            literals += 1;
            if literals > 64 {
                return (2, place);
            }
            if entry.unsigned_abs() > n {
                return (3, place);
            }
        }
    }
    if literals > 0 {
        return (3, table.len());
    }
    (0, 0)
}

/// A number with a comma before every three digits.
fn commas(number: u128) -> String {
    let digits = number.to_string();
    let mut shown = String::new();
    for (place, digit) in digits.chars().enumerate() {
        if place > 0 && (digits.len() - place).is_multiple_of(3) {
            shown.push(',');
        }
        shown.push(digit);
    }
    shown
}

fn cell(number: Option<u128>) -> String {
    number.map_or("–".to_string(), commas)
}

fn ratio(ours: Option<u128>, theirs: Option<u128>) -> String {
    match (ours, theirs) {
        (Some(ours), Some(theirs)) if theirs > 0 => format!("{:.2}", ours as f64 / theirs as f64),
        _ => "–".to_string(),
    }
}

/// The rounds, or the number of a refusal.
fn rounds(input: &Input) -> String {
    let memory = &mut Memory::new();
    let numbers = measured(&Second, Call::Settle, input, memory);
    if numbers.is_accepted() {
        return numbers.first.to_string();
    }
    format!("{} at {}", numbers.number, numbers.place)
}

fn row(input: &Input, rounds: &str, cells: &[String]) {
    println!("| {} | {} | {} | {rounds} | {} |", input.name, input.n, input.table.len(), cells.join(" | "));
}

/// The calls that both have.
fn steps() -> impl Iterator<Item = Call> {
    STEPS.into_iter().filter(|call| Proved.has(*call) && Second.has(*call))
}

fn heading(call: Call, unit: &str, more: &str) {
    println!("\n### {}, {unit} a call\n", call.name());
    println!("| input | n | entries | rounds | proved | second | ratio |{more}");
    println!("|---|--:|--:|--:|--:|--:|--:|{}", "--:|".repeat(more.matches('|').count()));
}

/// The times of both, a table for each call.
pub fn tables(texts: Vec<(String, Vec<u8>)>) {
    let inputs = inputs(texts);
    let counts: Vec<String> = inputs.iter().map(rounds).collect();
    for call in steps() {
        heading(call, "nanoseconds", if call == Call::Check { " plain loop | proved to plain |" } else { "" });
        for (input, rounds) in inputs.iter().zip(&counts) {
            let (ours, theirs) = (Some(time(&Proved, call, input)), Some(time(&Second, call, input)));
            let mut cells = vec![cell(ours), cell(theirs), ratio(ours, theirs)];
            if call == Call::Check {
                let plain = Some(nanoseconds(|| plain_loop(black_box(input.n), black_box(&input.table))));
                cells.extend([cell(plain), ratio(ours, plain)]);
            }
            row(input, rounds, &cells);
        }
    }
}

/// The instructions of both, counted by valgrind, a table for each call; a call that takes longer than a second has a dash.
pub fn instructions(texts: Vec<(String, Vec<u8>)>) {
    let inputs = inputs(texts);
    for call in steps() {
        heading(call, "instructions", "");
        for input in &inputs {
            let count = |builder: &dyn Builder, by: &str| {
                let short = time(builder, call, input) < LONG.as_nanos();
                short.then(|| counted(by, call, input)).flatten()
            };
            let (ours, theirs) = (count(&Proved, "proved"), count(&Second, "second"));
            row(input, &rounds(input), &[cell(ours), cell(theirs), ratio(ours, theirs)]);
        }
    }
}

/// The instructions of one call, made by this program once more under valgrind.
fn counted(by: &str, call: Call, input: &Input) -> Option<u128> {
    let path = std::env::temp_dir().join(format!("cases-{}.cnf", std::process::id()));
    std::fs::write(&path, &input.text).ok()?;
    let tool = ["--tool=callgrind", "--callgrind-out-file=/dev/null", "--collect-atstart=no"];
    let ran = Command::new("valgrind")
        .args(tool)
        .arg("--toggle-collect=cases::time::measured*")
        .arg(std::env::current_exe().ok()?)
        .args(["once", by, call.name()])
        .arg(&path)
        .output()
        .ok()?;
    let _ = std::fs::remove_file(&path);
    let told = String::from_utf8_lossy(&ran.stderr).into_owned();
    let line = told.lines().find(|line| line.contains("Collected :"))?;
    line.rsplit(' ').next()?.parse().ok()
}

/// One call on the text of a file, for valgrind.
pub fn once(builder: &str, call: &str, text: Vec<u8>) -> Option<Numbers> {
    let builder: &dyn Builder = if builder == "proved" { &Proved } else { &Second };
    let call = STEPS.into_iter().find(|step| step.name() == call)?;
    let mut row = vec![0; 16_384];
    let read = second::read(&text, &mut row);
    row.truncate(read.second);
    let input = Input { name: String::new(), n: read.first as u32, table: row, text };
    Some(measured(builder, call, &input, &mut Memory::new()))
}

/// The yards that are hard on one step or another.
pub fn worst() -> Vec<Yard> {
    vec![
        yards::ladder(1, 1_024, Order::Rising),
        yards::ladder(1, 1_024, Order::Falling),
        yards::ladder(1, 1_024, Order::Shuffled),
        yards::heavy_ladder(7, 1_024, 901, 2_296),
        yards::links(2, 1_024, Order::Shuffled),
        yards::forced(3, 1_024, Order::Falling),
        yards::parity_chain(5, 1_024, Order::Rising),
        yards::parity_chain(5, 1_024, Order::Shuffled),
        yards::wide(8, 1_024, 64, 63),
        yards::exactly_one(9, 1_024, 2, 64),
        yards::ring(6, 512, Order::Shuffled),
        yards::plain(10, 1_024, 4_096),
        yards::repeats(11, 1_024, 4_096),
        yards::triples(12, 1_024, 1_024),
        yards::tangle(14, 1_024, 1_365),
        yards::planted(1, 1_024, 4_096, 16_384),
        yards::planted(2, 1_024, 4_096, 16_384),
    ]
}
