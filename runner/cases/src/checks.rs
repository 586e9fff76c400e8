//! The checks that a case goes through, by what is known of it. None of them measures a builder against itself.

use crate::builder::{Book, Builder, Numbers};
use crate::case::{Case, Move, Start};
use crate::compare::{compare, lawful};
use crate::demands::{round_trip, satisfies, Built};
use crate::random::Random;
use crate::small::books;
use crate::words::Words;
use crate::yards::Yard;

fn ensure(holds: bool, what: impl FnOnce() -> String) -> Result<(), String> {
    if holds {
        return Ok(());
    }
    Err(what())
}

/// A small case: all calls against the words, and the demands over all assignments.
pub fn small_case(builder: &dyn Builder, words: &Words, case: &Case) -> Result<(), String> {
    against_words(builder, words, case)?;
    let Start::Table { n, table } = &case.start else {
        return Ok(());
    };
    if words.check(*n, table).number > 0 || *n > 12 {
        return Ok(());
    }
    round_trip(builder, *n, table)?;
    let books = books(case, *n);
    for book in books.iter().take(1).chain(books.last()) {
        let built = Built::new(builder, *n, table, book)?;
        built.all()?;
        let settled = words.settled(*n, table, &book.pins[..book.length]);
        ensure(settled.is_some() == built.shown.is_some(), || "one finds a contradiction, one doesn't".to_string())?;
        built.written_out(&settled.unwrap_or_default())?;
    }
    night(builder, *n, table, &case.moves)
}

/// All calls of a case against the words.
pub fn against_words(builder: &dyn Builder, words: &Words, case: &Case) -> Result<(), String> {
    compare(builder, words, case).map(|_| ()).map_err(|difference| difference.to_string())
}

/// A run of pins and take-backs from an empty book: "the pins in force are those that a plain stack of the accepted ones
/// holds", and the plan is that of the table with the stack's pins put behind it as clauses.
pub fn night(builder: &dyn Builder, n: u32, table: &[i32], moves: &[Move]) -> Result<(), String> {
    let mut work = vec![7; 16_384];
    let mut book = Book::EMPTY;
    let mut stack: Vec<i32> = Vec::new();
    for step in moves {
        let numbers = match step {
            Move::Pin(new) => builder.pin(n, table, &mut work, &mut book, *new),
            Move::TakeBack => builder.take_back(&mut book),
        };
        match (step, numbers.number) {
            (Move::Pin(new), 0) => stack.push(*new),
            (Move::Pin(new), 4) => ensure(!satisfiable(n, table, &stack, *new), || {
                format!("pin {new} is a contradiction, yet can be satisfied")
            })?,
            (Move::Pin(new), 5) => ensure(*new == 0 || new.unsigned_abs() > n, || format!("pin {new} is refused"))?,
            (Move::Pin(_), 6) => ensure(stack.len() == 64, || "the book is not full".to_string())?,
            (Move::TakeBack, 0) => ensure(stack.pop().is_some(), || "nothing was there".to_string())?,
            (Move::TakeBack, 7) => ensure(stack.is_empty(), || "something was there".to_string())?,
            _ => return Err(format!("{step:?} gives {numbers:?}")),
        }
        let places: Vec<i32> = stack.iter().copied().chain(std::iter::repeat(0)).take(64).collect();
        let same = book.length == stack.len() && book.pins[..] == places;
        ensure(same, || format!("the book {book:?} is not the stack {stack:?}"))?;
        let behind: Vec<i32> = table.iter().copied().chain(stack.iter().flat_map(|pin| [*pin, 0])).collect();
        let (with_book, with_clauses) = (listing(builder, n, table, &book), listing(builder, n, &behind, &Book::EMPTY));
        let fits = builder.check(n, &behind).is_accepted();
        ensure(!fits || with_book == with_clauses, || format!("pins {stack:?} are not as clauses behind the table"))?;
    }
    Ok(())
}

fn listing(builder: &dyn Builder, n: u32, table: &[i32], book: &Book) -> (Numbers, Vec<u8>) {
    let mut work = vec![7; 16_384];
    let mut bytes = vec![0; 64 + 16 * n as usize + 12 * table.len()];
    let numbers = builder.build(n, table, &mut work, book, &mut bytes);
    bytes.truncate(numbers.second);
    (numbers, bytes)
}

/// Whether an assignment satisfies table, stack and a further pin; only asked for few variables.
fn satisfiable(n: u32, table: &[i32], stack: &[i32], new: i32) -> bool {
    if n > 12 {
        return false;
    }
    let units: Vec<i32> = stack.iter().chain([&new]).flat_map(|pin| [*pin, 0]).collect();
    (0..1_u32 << n).any(|mask| {
        let values: Vec<u8> = (0..n).map(|at| (mask >> at & 1) as u8).collect();
        satisfies(table, &values) && satisfies(&units, &values)
    })
}

/// A yard of any size: the rules of lent memory, what is known of its plan, the round trip, and chosen fillings.
pub fn yard(builder: &dyn Builder, yard: &Yard) -> Result<(), String> {
    lawful(builder, &yard.case)?;
    let Start::Table { n, table } = &yard.case.start else {
        return Ok(());
    };
    round_trip(builder, *n, table)?;
    let (numbers, bytes) = listing(builder, *n, table, &Book::EMPTY);
    if let Some(line) = &yard.line {
        let first = match numbers.number {
            0 => String::from_utf8_lossy(&bytes).lines().next().unwrap_or("").replace('\t', " "),
            number => format!("X {number} {}", numbers.place),
        };
        ensure(first == *line, || format!("the first line is {first:?}, not {line:?}"))?;
    }
    night(builder, *n, table, &yard.case.moves)?;
    for book in books(&yard.case, *n) {
        let built = Built::new(builder, *n, table, &book)?;
        built.some(&mut Random::new(yard.case.seed), 3)?;
        if let Some(known) = &yard.known {
            built.known(known)?;
        }
    }
    Ok(())
}

/// A reading must come to this number and place; 0 stands for accepted.
pub fn reading(builder: &dyn Builder, text: &[u8], number: u32, place: usize) -> Result<(), String> {
    lawful(builder, &Case::of_text("sizes", 0, text.to_vec()))?;
    let numbers = builder.read(text, &mut vec![7; 16_384]);
    ensure((numbers.number, numbers.place) == (number, place), || format!("read as {numbers:?}"))
}
