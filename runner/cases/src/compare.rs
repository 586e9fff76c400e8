//! One walk through all calls for a case, and the comparison of two builders along it.
//!
//! The walk lends buffers below, at and above the room needed and work buffers of 16,383, 16,384 and 16,400 entries.
//! Rooms and tables follow from the builder's own answers, so that two builders take the same steps as long as they
//! answer alike; the first step where they don't is the difference.

use crate::builder::{Book, Builder, Call};
use crate::case::{Case, Move, Pace, Start};
use crate::lent::{Given, Lending, Outcome};
use std::collections::BTreeMap;
use std::fmt;

/// Lengths of work buffers that are lent: one short, one that just does, one longer.
pub const WORKS: [usize; 3] = [16_383, 16_384, 16_400];

/// Where two builders part.
#[derive(Debug)]
pub struct Difference {
    pub call: String,
    pub left: String,
    pub right: String,
}

impl fmt::Display for Difference {
    fn fmt(&self, to: &mut fmt::Formatter<'_>) -> fmt::Result {
        write!(to, "{}\n  {}\n  {}", self.call, self.left, self.right)
    }
}

/// How many calls of each kind were compared.
pub type Counts = BTreeMap<Call, usize>;

/// Compares two builders on a case: every number, and every byte of all lent memory afterwards. A broken rule of lent
/// memory is a difference as well. Calls that one of the two has not are left out; what was compared is counted.
pub fn compare(a: &dyn Builder, b: &dyn Builder, case: &Case) -> Result<Counts, Difference> {
    let both = |call| a.has(call) && b.has(call);
    let (left, right) = (walk(a, case, &both), walk(b, case, &both));
    let mut counts = Counts::new();
    for (place, ours) in left.iter().enumerate() {
        let theirs = right.get(place);
        if theirs != Some(ours) || ours.broken.is_some() {
            return Err(Difference {
                call: ours.words.clone(),
                left: format!("{}: {}", a.name(), shown(Some(ours))),
                right: format!("{}: {}", b.name(), shown(theirs)),
            });
        }
        *counts.entry(ours.call).or_default() += 1;
    }
    if let Some(more) = right.get(left.len()) {
        let right = format!("{}: {}", b.name(), shown(Some(more)));
        return Err(Difference { call: more.words.clone(), left: format!("{}: no such call", a.name()), right });
    }
    Ok(counts)
}

/// The rules of lent memory along the walk of one builder.
pub fn lawful(builder: &dyn Builder, case: &Case) -> Result<(), String> {
    for outcome in walk(builder, case, &|call| builder.has(call)) {
        if let Some(broken) = outcome.broken {
            return Err(format!("{}: {broken}", outcome.words));
        }
    }
    Ok(())
}

/// The calls with their answers, for showing two walks.
fn shown(outcome: Option<&Outcome>) -> String {
    let Some(outcome) = outcome else {
        return "no such call".to_string();
    };
    let numbers = outcome.numbers;
    let mut shown = format!(
        "{} at {}, also {} and {}, after {}",
        numbers.number, numbers.place, numbers.first, numbers.second, outcome.words
    );
    if let Some(broken) = &outcome.broken {
        shown.push_str(&format!("; broken: {broken}"));
    }
    if let Some(book) = &outcome.book {
        shown.push_str(&format!("; a book of {}: {:?}", book.length, &book.pins[..book.length.min(64)]));
    }
    if numbers.is_accepted() && !outcome.bytes.is_empty() {
        let front = &outcome.bytes[..outcome.bytes.len().min(600)];
        shown.push_str(&format!("; bytes {:?}", String::from_utf8_lossy(front)));
    }
    if numbers.is_accepted() && !outcome.entries.is_empty() {
        let front = &outcome.entries[..outcome.entries.len().min(60)];
        shown.push_str(&format!("; entries {front:?}"));
    }
    shown
}

/// All calls for a case that are taken, in one order.
pub fn walk(builder: &dyn Builder, case: &Case, takes: &dyn Fn(Call) -> bool) -> Vec<Outcome> {
    let mut lending = Lending::new(builder, takes);
    match &case.start {
        Start::Table { n, table } => table_calls(&mut lending, case, *n, table),
        Start::Text(text) => {
            lending.program(text);
            if !case.many {
                lending.run(text);
            }
            let read = lending.read(text, 16_400);
            let row = lending.outcomes.last().map(|outcome| outcome.entries.clone()).unwrap_or_default();
            if read.is_accepted() && row.len() >= read.second {
                for room in rooms(read.second) {
                    lending.read(text, room);
                }
                let table = row[..read.second].to_vec();
                table_calls(&mut lending, case, read.first as u32, &table);
            } else {
                lending.read(text, 0);
            }
        }
    }
    lending.outcomes
}

/// Rooms around the one that is needed.
fn rooms(needed: usize) -> Vec<usize> {
    let mut rooms = vec![needed, needed + 5, needed.saturating_sub(1), 0];
    rooms.dedup();
    rooms
}

fn table_calls(lending: &mut Lending, case: &Case, n: u32, table: &[i32]) {
    lending.check(n, table);
    let written = lending.write(n, table, 64 + 12 * table.len());
    if written.is_accepted() {
        for room in rooms(written.first) {
            lending.write(n, table, room);
        }
    }
    let zeros = table.iter().filter(|entry| **entry == 0).count();
    for k in [0, 1, 2, 3, zeros / 2, zeros.wrapping_sub(1), zeros, zeros + 1, 4_096, usize::MAX] {
        lending.clause(n, table, k);
    }
    let given = Given { n, table, book: &case.book, work: 16_384 };
    match case.pace {
        Pace::Whole => full_round(lending, case, given),
        Pace::Lean => lean_round(lending, case, given),
        Pace::Brief => return brief_round(lending, given),
    }
    let mut book = case.book;
    for step in &case.moves {
        let given = Given { n, table, book: &book, work: 16_384 };
        book = match step {
            Move::Pin(literal) => {
                if case.pace == Pace::Whole {
                    lending.pin(Given { work: 16_383, ..given }, *literal);
                    lending.pin(Given { work: 16_400, ..given }, *literal);
                }
                lending.pin(given, *literal)
            }
            Move::TakeBack => lending.take_back(&book),
        };
        short_round(lending, case, Given { n, table, book: &book, work: 16_384 });
    }
    if !case.moves.is_empty() && case.pace == Pace::Whole {
        full_round(lending, case, Given { n, table, book: &book, work: 16_384 });
    }
}

/// Room that a listing never passes but by clauses of very long numbers.
fn generous(given: Given) -> usize {
    512 + 10 * given.table.len() + 16 * (given.n as usize).min(1_024)
}

/// Builds with room enough, or with the room that a first refusal names.
fn short_round(lending: &mut Lending, case: &Case, given: Given) -> usize {
    let mut built = lending.build(given, generous(given));
    if built.number == 8 {
        built = lending.build(given, built.place);
    }
    let n = given.n as usize;
    lending.settle(given, n.min(2_000) + 1);
    lending.fill(given, &case.values, n.min(2_000));
    let variable = 1 + (case.seed % u64::from(given.n.max(1))) as u32;
    lending.ask(given, &case.values, variable);
    built.second
}

/// The rounds, a build, a pin and a take-back, once each.
fn brief_round(lending: &mut Lending, given: Given) {
    let given = Given { work: 16_400, ..given };
    lending.settle(given, given.n.min(2_000) as usize + 1);
    lending.build(given, generous(given));
    let book = lending.pin(given, given.n.min(1_024) as i32);
    lending.take_back(&book);
}

/// All calls with this book, each with room that just does and with one buffer short of it.
fn lean_round(lending: &mut Lending, case: &Case, given: Given) {
    let needed = short_round(lending, case, given);
    let n = (given.n as usize).min(2_000);
    lending.build(Given { work: 16_400, ..given }, needed);
    lending.build(given, needed.saturating_sub(1));
    lending.fill(given, &case.values, n.saturating_sub(1));
    let short = Given { work: 16_383, ..given };
    lending.settle(short, n + 1);
    lending.build(short, needed);
    lending.fill(short, &case.values, n);
    lending.ask(short, &case.values, 1);
    lending.ask(given, &case.values, given.n.saturating_add(1));
    lending.pin(short, 1);
    let book = lending.pin(given, -1);
    lending.take_back(&book);
}

/// All calls with this book, with all buffers.
fn full_round(lending: &mut Lending, case: &Case, given: Given) {
    let needed = short_round(lending, case, given);
    for work in WORKS {
        for room in rooms(needed) {
            lending.build(Given { work, ..given }, room);
        }
    }
    let n = (given.n as usize).min(2_000);
    let short = &case.values[..case.values.len().min(n.saturating_sub(1))];
    for work in WORKS {
        let given = Given { work, ..given };
        for places in rooms(n + 1) {
            lending.settle(given, places);
        }
        for room in rooms(n) {
            lending.fill(given, &case.values, room);
        }
        lending.fill(given, short, n);
        lending.fill(given, short, n.saturating_sub(1));
        for variable in [0, 1, given.n / 2, given.n, given.n.saturating_add(1), u32::MAX] {
            lending.ask(given, &case.values, variable);
        }
        lending.ask(given, short, 1);
        for new in [0, 1, -1, given.n.min(5_000) as i32, given.n.min(5_000) as i32 + 1, i32::MIN] {
            lending.pin(given, new);
        }
    }
    lending.take_back(given.book);
    lending.take_back(&Book { length: given.book.length.wrapping_add(60), ..*given.book });
}
