//! Calls with lent buffers that are filled with a pattern first and looked over byte by byte afterwards.
//!
//! "A refusal leaves result buffers and pin book as found. Every lent work buffer is all zero after every call. An
//! accepted call writes the front of its result buffer and nothing behind it: a build its listing, a fill n bytes 0 or 1
//! by variable, a reading the table."

use crate::builder::{Book, Builder, Call, Numbers};

/// What a call left behind: all that two builders must have in common, and what it broke.
#[derive(Clone, Debug, PartialEq, Eq)]
pub struct Outcome {
    pub call: Call,
    /// The call and what it was lent, in words.
    pub words: String,
    pub numbers: Numbers,
    /// The whole result buffer afterwards.
    pub bytes: Vec<u8>,
    pub entries: Vec<i32>,
    pub book: Option<Book>,
    /// The rule of lent memory that was broken.
    pub broken: Option<String>,
}

fn byte(place: usize) -> u8 {
    (place as u8).wrapping_mul(37) | 2
}

fn entry(place: usize) -> i32 {
    0x5a5a_0000 ^ place as i32
}

fn code(place: usize) -> u16 {
    0xa500 ^ place as u16
}

/// Numbers of a pattern; none of them is a literal's within the sizes.
fn codes(length: usize) -> Vec<u16> {
    (0..length).map(code).collect()
}

/// Bytes of a pattern; none of them is 0 or 1.
pub fn bytes(length: usize) -> Vec<u8> {
    (0..length).map(byte).collect()
}

/// Entries of a pattern; none of them is 0 or a literal within the sizes.
pub fn entries(length: usize) -> Vec<i32> {
    (0..length).map(entry).collect()
}

fn work_wiped(work: &[i32]) -> Option<String> {
    let at = work.iter().position(|entry| *entry != 0)?;
    Some(format!("the work buffer holds {} at {at}", work[at]))
}

/// Where the pattern is broken from `front` on.
fn tail<T: PartialEq + Copy + std::fmt::Debug>(row: &[T], front: usize, pattern: fn(usize) -> T) -> Option<String> {
    let at = (front..row.len()).find(|at| row[*at] != pattern(*at))?;
    Some(format!("the result buffer was written at {at}, behind its front of {front}: {:?}", row[at]))
}

fn book_kept(before: &Book, after: &Book) -> Option<String> {
    (before != after).then(|| "the book was changed".to_string())
}

/// A refusal's further numbers are 0.
fn zeros(numbers: &Numbers) -> Option<String> {
    let clean = numbers.is_accepted() || (numbers.first == 0 && numbers.second == 0);
    (!clean).then(|| format!("a refusal also returns {} and {}", numbers.first, numbers.second))
}

fn front(numbers: &Numbers, written: usize) -> usize {
    if numbers.is_accepted() {
        written
    } else {
        0
    }
}

/// A builder with the outcomes of its calls so far. A call that is left out is not made, has no outcome, and answers as
/// one that was accepted and found nothing.
pub struct Lending<'a> {
    pub builder: &'a dyn Builder,
    pub takes: &'a dyn Fn(Call) -> bool,
    pub outcomes: Vec<Outcome>,
}

/// What stands for the answer of a call that is left out.
const LEFT_OUT: Numbers = Numbers { number: 0, place: 0, first: 0, second: 0 };

/// What build, fill, ask and pin are given.
#[derive(Clone, Copy)]
pub struct Given<'a> {
    pub n: u32,
    pub table: &'a [i32],
    pub book: &'a Book,
    /// The length of the work buffer.
    pub work: usize,
}

impl<'a> Lending<'a> {
    pub fn new(builder: &'a dyn Builder, takes: &'a dyn Fn(Call) -> bool) -> Lending<'a> {
        Lending { builder, takes, outcomes: Vec::new() }
    }

    fn add(&mut self, call: Call, words: String, numbers: Numbers) -> &mut Outcome {
        let broken = zeros(&numbers);
        let (bytes, entries) = (Vec::new(), Vec::new());
        self.outcomes.push(Outcome { call, words, numbers, bytes, entries, book: None, broken });
        self.outcomes.last_mut().expect("just added")
    }

    pub fn check(&mut self, n: u32, table: &[i32]) -> Numbers {
        if !(self.takes)(Call::Check) {
            return LEFT_OUT;
        }
        let numbers = self.builder.check(n, table);
        self.add(Call::Check, format!("check, n = {n}"), numbers);
        numbers
    }

    pub fn read(&mut self, text: &[u8], room: usize) -> Numbers {
        if !(self.takes)(Call::Read) {
            return LEFT_OUT;
        }
        let mut row = entries(room);
        let numbers = self.builder.read(text, &mut row);
        let outcome = self.add(Call::Read, format!("read into {room}"), numbers);
        outcome.broken = outcome.broken.take().or(tail(&row, front(&numbers, numbers.second), entry));
        outcome.entries = row;
        numbers
    }

    pub fn write(&mut self, n: u32, table: &[i32], room: usize) -> Numbers {
        if !(self.takes)(Call::Write) {
            return LEFT_OUT;
        }
        let mut row = bytes(room);
        let numbers = self.builder.write(n, table, &mut row);
        let outcome = self.add(Call::Write, format!("write into {room}"), numbers);
        outcome.broken = outcome.broken.take().or(tail(&row, front(&numbers, numbers.first), byte));
        outcome.bytes = row;
        numbers
    }

    /// The look-up's answer is told by where its stretch starts and ends in the lent table.
    pub fn clause(&mut self, n: u32, table: &[i32], k: usize) {
        if !(self.takes)(Call::LookUp) {
            return;
        }
        let found = self.builder.clause(n, table, k);
        let from = found.as_ptr().addr().wrapping_sub(table.as_ptr().addr()) / size_of::<i32>();
        let numbers = Numbers { number: 0, place: 0, first: from, second: found.len() };
        let outside = from > table.len() || found.len() > table.len() - from;
        let outcome = self.add(Call::LookUp, format!("look up clause {k}"), numbers);
        if outside {
            outcome.broken = Some("the stretch is no part of the lent table".to_string());
        }
    }

    /// The rounds by themselves, with room for so many variables. What they leave at the front of the two rows is taken
    /// into the entries; of the row the rest is not looked at, since the rounds are run in it.
    pub fn settle(&mut self, given: Given, places: usize) -> Numbers {
        if !(self.takes)(Call::Settle) {
            return LEFT_OUT;
        }
        let mut row = entries(given.work);
        let mut stands = codes(places);
        let numbers = self.builder.settle(given.n, given.table, &mut row, given.book, &mut stands);
        let words = format!("settle in {} with {places} places", given.work);
        let outcome = self.add(Call::Settle, words, numbers);
        let written = front(&numbers, given.n as usize + 1);
        outcome.broken = outcome.broken.take().or(tail(&stands, written.max(given.n as usize + 1).min(places), code));
        row.truncate(front(&numbers, numbers.second));
        row.extend(stands[..written.min(places)].iter().map(|code| i32::from(*code)));
        outcome.entries = row;
        numbers
    }

    pub fn build(&mut self, given: Given, room: usize) -> Numbers {
        if !(self.takes)(Call::Build) {
            return LEFT_OUT;
        }
        let mut row = bytes(room);
        let mut work = entries(given.work);
        let numbers = self.builder.build(given.n, given.table, &mut work, given.book, &mut row);
        let outcome = self.add(Call::Build, format!("build into {room}, work {}", given.work), numbers);
        let kept = tail(&row, front(&numbers, numbers.second), byte);
        outcome.broken = outcome.broken.take().or(work_wiped(&work)).or(kept);
        outcome.bytes = row;
        numbers
    }

    pub fn fill(&mut self, given: Given, values: &[u8], room: usize) -> Numbers {
        if !(self.takes)(Call::Fill) {
            return LEFT_OUT;
        }
        let mut row = bytes(room);
        let mut work = entries(given.work);
        let numbers = self.builder.fill(given.n, given.table, &mut work, given.book, values, &mut row);
        let words = format!("fill from {} into {room}, work {}", values.len(), given.work);
        let outcome = self.add(Call::Fill, words, numbers);
        let written = front(&numbers, given.n as usize);
        let bits = row[..written.min(row.len())].iter().all(|value| *value < 2);
        let bits = (!bits).then(|| "a filled-in value is neither 0 nor 1".to_string());
        outcome.broken = outcome.broken.take().or(work_wiped(&work)).or(tail(&row, written, byte)).or(bits);
        outcome.bytes = row;
        numbers
    }

    pub fn ask(&mut self, given: Given, values: &[u8], variable: u32) -> Numbers {
        if !(self.takes)(Call::Ask) {
            return LEFT_OUT;
        }
        let mut work = entries(given.work);
        let numbers = self.builder.ask(given.n, given.table, &mut work, given.book, values, variable);
        let words = format!("ask for {variable} from {}, work {}", values.len(), given.work);
        let outcome = self.add(Call::Ask, words, numbers);
        outcome.broken = outcome.broken.take().or(work_wiped(&work));
        numbers
    }

    /// Pins into a copy of the book, which comes back.
    pub fn pin(&mut self, given: Given, new: i32) -> Book {
        if !(self.takes)(Call::Pin) {
            return *given.book;
        }
        let mut work = entries(given.work);
        let mut book = *given.book;
        let numbers = self.builder.pin(given.n, given.table, &mut work, &mut book, new);
        let outcome = self.add(Call::Pin, format!("pin {new}, work {}", given.work), numbers);
        let mut expected = *given.book;
        if numbers.is_accepted() && expected.length < 64 {
            expected.pins[expected.length] = new;
            expected.length += 1;
        }
        outcome.broken = outcome.broken.take().or(work_wiped(&work)).or(book_kept(&expected, &book));
        outcome.book = Some(book);
        book
    }

    /// Takes back from a copy of the book, which comes back.
    pub fn take_back(&mut self, before: &Book) -> Book {
        if !(self.takes)(Call::TakeBack) {
            return *before;
        }
        let mut book = *before;
        let numbers = self.builder.take_back(&mut book);
        let outcome = self.add(Call::TakeBack, "take back".to_string(), numbers);
        let mut expected = *before;
        if numbers.is_accepted() && (1..=64).contains(&expected.length) {
            expected.length -= 1;
            expected.pins[expected.length] = 0;
        }
        outcome.broken = outcome.broken.take().or(book_kept(&expected, &book));
        outcome.book = Some(book);
        book
    }

    pub fn program(&mut self, text: &[u8]) {
        if !(self.takes)(Call::Program) {
            return;
        }
        let printed = self.builder.program(text);
        self.add(Call::Program, "program".to_string(), Numbers::accepted(0, 0)).bytes = printed;
    }

    pub fn run(&mut self, text: &[u8]) {
        if !(self.takes)(Call::Run) {
            return;
        }
        let printed = self.builder.run(text);
        self.add(Call::Run, "the program run".to_string(), Numbers::accepted(0, 0)).bytes = printed;
    }
}
