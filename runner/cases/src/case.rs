//! A case: a clause text or a lent table, with a pin book, moves, values and what else the calls are given. It is shown
//! as clause text with its seed, so that a failing one can be kept as a file.

use crate::builder::Book;
use std::fmt;

/// What a case starts from.
#[derive(Clone, Debug, PartialEq, Eq)]
pub enum Start {
    /// Clause text, good or bad; an accepted one is taken on as a table.
    Text(Vec<u8>),
    /// A lent table, sound or not.
    Table { n: u32, table: Vec<i32> },
}

/// A move at the desk.
#[derive(Clone, Copy, Debug, PartialEq, Eq)]
pub enum Move {
    Pin(i32),
    TakeBack,
}

/// How much of the walk through all calls a case takes.
#[derive(Clone, Copy, Debug, PartialEq, Eq)]
pub enum Pace {
    /// Every call with every buffer.
    Whole,
    /// Every call, with few of the buffers: for full yards, of which a call takes a tenth of a second.
    Lean,
    /// The rounds, a build, a pin and a take-back, once each: for full ladders, of which a call takes seconds.
    Brief,
}

#[derive(Clone, Debug)]
pub struct Case {
    /// Which generator made it.
    pub family: String,
    pub seed: u64,
    pub start: Start,
    /// The book before the first move.
    pub book: Book,
    pub moves: Vec<Move>,
    /// The values given to a fill or an ask.
    pub values: Vec<u8>,
    pub pace: Pace,
    /// Whether it is one of thousands that differ in a byte, and no process is started for it.
    pub many: bool,
}

impl Case {
    pub fn of_table(family: &str, seed: u64, n: u32, table: Vec<i32>) -> Case {
        let values = vec![0; n as usize];
        let start = Start::Table { n, table };
        Case {
            family: family.to_string(),
            seed,
            start,
            book: Book::EMPTY,
            moves: Vec::new(),
            values,
            pace: Pace::Whole,
            many: false,
        }
    }

    pub fn of_text(family: &str, seed: u64, text: Vec<u8>) -> Case {
        let mut case = Case::of_table(family, seed, 1_024, Vec::new());
        case.start = Start::Text(text);
        case
    }

    /// The same case, walked through leanly if it is a large one.
    pub fn lean(self) -> Case {
        let large = self.pace == Pace::Whole && self.size() > 6_000;
        Case { pace: if large { Pace::Lean } else { self.pace }, ..self }
    }

    /// The entries or bytes that it starts from; the cutter wants fewer.
    pub fn size(&self) -> usize {
        match &self.start {
            Start::Text(text) => text.len(),
            Start::Table { table, .. } => table.len(),
        }
    }
}

/// Puts a table together from clauses.
pub fn table_of(clauses: &[Vec<i32>]) -> Vec<i32> {
    clauses.iter().flat_map(|clause| clause.iter().copied().chain([0])).collect()
}

/// A table as lines of clause text; entries that no text can hold are written all the same.
pub fn text_of(n: u32, table: &[i32]) -> String {
    let zeros = table.iter().filter(|entry| **entry == 0).count();
    let mut text = format!("p cnf {n} {zeros}\n");
    for clause in table.split_inclusive(|&entry| entry == 0) {
        let entries: Vec<String> = clause.iter().map(i32::to_string).collect();
        text.push_str(&entries.join(" "));
        text.push('\n');
    }
    text
}

impl fmt::Display for Case {
    fn fmt(&self, to: &mut fmt::Formatter<'_>) -> fmt::Result {
        writeln!(to, "c family {} seed {}", self.family, self.seed)?;
        let held = &self.book.pins[..self.book.length.min(64)];
        if self.book != Book::EMPTY {
            writeln!(to, "c book of length {}: {held:?}", self.book.length)?;
        }
        if !self.moves.is_empty() {
            let moves = self.moves.iter().map(|step| match step {
                Move::Pin(literal) => format!("pin {literal}"),
                Move::TakeBack => "take back".to_string(),
            });
            writeln!(to, "c moves: {}", moves.collect::<Vec<_>>().join(", "))?;
        }
        match &self.start {
            Start::Text(text) => writeln!(to, "c the text as it is: {:?}", String::from_utf8_lossy(text)),
            Start::Table { n, table } => {
                if self.values.iter().any(|value| *value != 0) || self.values.len() != *n as usize {
                    writeln!(to, "c values: {:?}", self.values)?;
                }
                write!(to, "{}", text_of(*n, table))
            }
        }
    }
}
