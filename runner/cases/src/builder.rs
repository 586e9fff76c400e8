//! What is compared: every public call of a builder, over plain slices and the pin book.

use proved::{Answer, LentBook};
use second::plan::{lent, rounds};
use second::rounds::{Part, Settled};
pub use second::{Book, Numbers};

/// The calls of a builder.
#[derive(Clone, Copy, Debug, PartialEq, Eq, PartialOrd, Ord)]
pub enum Call {
    Check,
    LookUp,
    Read,
    Write,
    Settle,
    Pin,
    TakeBack,
    Build,
    Fill,
    Ask,
    Program,
    Run,
}

impl Call {
    pub const ALL: [Call; 12] = [
        Call::Check,
        Call::LookUp,
        Call::Read,
        Call::Write,
        Call::Settle,
        Call::Pin,
        Call::TakeBack,
        Call::Build,
        Call::Fill,
        Call::Ask,
        Call::Program,
        Call::Run,
    ];

    pub fn name(self) -> &'static str {
        match self {
            Call::Check => "check",
            Call::LookUp => "look-up",
            Call::Read => "read",
            Call::Write => "write",
            Call::Settle => "settle",
            Call::Pin => "pin",
            Call::TakeBack => "take-back",
            Call::Build => "build",
            Call::Fill => "fill",
            Call::Ask => "ask",
            Call::Program => "program",
            Call::Run => "run",
        }
    }
}

/// A program that follows the rules. The calls are those of the rules; `Numbers` says in which order a call's further
/// numbers stand.
pub trait Builder {
    fn name(&self) -> &str;

    /// Whether the builder has this call. A call that it has not is never made; a comparison leaves it out on both sides
    /// and says so. The rounds by themselves, and the build program as a process of its own, are no calls of the rules, so
    /// a builder has them only where it says so.
    fn has(&self, call: Call) -> bool {
        !matches!(call, Call::Settle | Call::Run)
    }

    /// Checks a table.
    fn check(&self, n: u32, table: &[i32]) -> Numbers;

    /// Reads clause text into a lent row; also returns n and the entries.
    fn read(&self, text: &[u8], row: &mut [i32]) -> Numbers;

    /// Writes a table as clause text to lent bytes; also returns the bytes written.
    fn write(&self, n: u32, table: &[i32], bytes: &mut [u8]) -> Numbers;

    /// Looks up clause number k, from 0: a stretch of the lent table itself.
    fn clause<'a>(&self, n: u32, table: &'a [i32], k: usize) -> &'a [i32];

    /// Builds and prints the listing to lent bytes; also returns the rounds and the bytes written.
    fn build(&self, n: u32, table: &[i32], work: &mut [i32], book: &Book, bytes: &mut [u8]) -> Numbers;

    /// Fills in all variables from the given values of the free ones.
    fn fill(&self, n: u32, table: &[i32], work: &mut [i32], book: &Book, values: &[u8], result: &mut [u8]) -> Numbers;

    /// Asks for one variable; also returns its value.
    fn ask(&self, n: u32, table: &[i32], work: &mut [i32], book: &Book, values: &[u8], variable: u32) -> Numbers;

    /// Runs the rounds by themselves, on the table with the held pins: the tests of a build up to 5, 8 where `stands` has
    /// no place for each variable and place 0, then 4. Accepted, the settled table stands at the front of the row, and
    /// `stands` has for each variable, from place 0, what it stands for: 2v for v, 2v + 1 for -v, 1 or 0 where it is fixed.
    /// Also returns the rounds and the entries of the settled table. What a refusal leaves in the two rows is not said.
    fn settle(&self, _n: u32, _table: &[i32], _row: &mut [i32], _book: &Book, _stands: &mut [u16]) -> Numbers {
        unreachable!("{} has no rounds by themselves", self.name())
    }

    /// Puts a pin into the book.
    fn pin(&self, n: u32, table: &[i32], work: &mut [i32], book: &mut Book, new: i32) -> Numbers;

    /// Takes the last pin back.
    fn take_back(&self, book: &mut Book) -> Numbers;

    /// The build program: clause text in, the listing or the X line out.
    fn program(&self, text: &[u8]) -> Vec<u8>;

    /// The same, where it can be run as a process: text on standard input, and what comes on standard output.
    fn run(&self, text: &[u8]) -> Vec<u8> {
        self.program(text)
    }
}

/// The second program.
pub struct Second;

/// The settled table and what each variable stands for, laid out as a builder's `settle` says.
fn laid_out(settled: &Settled) -> (Vec<i32>, Vec<u16>) {
    let clauses = settled.clauses.iter().flat_map(|clause| clause.iter().copied().chain([0]));
    let standing = |(variable, part): (usize, &Part)| match *part {
        Part::Fixed(value) => u16::from(value),
        Part::Linked(root) => 2 * root.unsigned_abs() as u16 + u16::from(root < 0),
        Part::Root => 2 * variable as u16,
    };
    let mut stands: Vec<u16> = settled.parts.iter().enumerate().map(standing).collect();
    stands[0] = 0;
    (clauses.collect(), stands)
}

impl Builder for Second {
    fn name(&self) -> &str {
        "second"
    }

    fn has(&self, _call: Call) -> bool {
        true
    }

    fn check(&self, n: u32, table: &[i32]) -> Numbers {
        second::check(n, table)
    }

    fn read(&self, text: &[u8], row: &mut [i32]) -> Numbers {
        second::read(text, row)
    }

    fn write(&self, n: u32, table: &[i32], bytes: &mut [u8]) -> Numbers {
        second::write(n, table, bytes)
    }

    fn clause<'a>(&self, n: u32, table: &'a [i32], k: usize) -> &'a [i32] {
        second::clause(n, table, k)
    }

    fn build(&self, n: u32, table: &[i32], work: &mut [i32], book: &Book, bytes: &mut [u8]) -> Numbers {
        second::build(n, table, work, book, bytes)
    }

    fn fill(&self, n: u32, table: &[i32], work: &mut [i32], book: &Book, values: &[u8], result: &mut [u8]) -> Numbers {
        second::fill(n, table, work, book, values, result)
    }

    fn ask(&self, n: u32, table: &[i32], work: &mut [i32], book: &Book, values: &[u8], variable: u32) -> Numbers {
        second::ask(n, table, work, book, values, variable)
    }

    fn settle(&self, n: u32, table: &[i32], row: &mut [i32], book: &Book, stands: &mut [u16]) -> Numbers {
        let call = lent(n, table, row, book).and_then(|held| {
            if stands.len() <= n as usize {
                return Err(Numbers::refused(8, n as usize + 1));
            }
            rounds(n, table, held)
        });
        match call {
            Ok(settled) => {
                let (clauses, standing) = laid_out(&settled);
                row[..clauses.len()].copy_from_slice(&clauses);
                stands[..standing.len()].copy_from_slice(&standing);
                Numbers::accepted(settled.rounds, clauses.len())
            }
            Err(numbers) => numbers,
        }
    }

    fn pin(&self, n: u32, table: &[i32], work: &mut [i32], book: &mut Book, new: i32) -> Numbers {
        second::pin(n, table, work, book, new)
    }

    fn take_back(&self, book: &mut Book) -> Numbers {
        second::take_back(book)
    }

    fn program(&self, text: &[u8]) -> Vec<u8> {
        second::program(text)
    }
}

/// The proved calls.
pub struct Proved;

fn numbers(answer: Answer) -> Numbers {
    Numbers { number: answer.number, place: answer.place, first: answer.first, second: answer.second }
}

fn lent_book(book: &Book) -> LentBook {
    LentBook { pins: book.pins, held: book.length }
}

/// A call over a lent book, which is changed as the call changes it.
fn over(book: &mut Book, call: impl FnOnce(&mut LentBook) -> Answer) -> Numbers {
    let mut lent = lent_book(book);
    let answer = call(&mut lent);
    *book = Book { pins: lent.pins, length: lent.held };
    numbers(answer)
}

impl Builder for Proved {
    fn name(&self) -> &str {
        "proved"
    }

    fn has(&self, call: Call) -> bool {
        call != Call::Run || proved::program_file().is_file()
    }

    fn check(&self, n: u32, table: &[i32]) -> Numbers {
        numbers(proved::check(n as usize, table))
    }

    fn read(&self, text: &[u8], row: &mut [i32]) -> Numbers {
        numbers(proved::read(text, row))
    }

    fn write(&self, n: u32, table: &[i32], bytes: &mut [u8]) -> Numbers {
        numbers(proved::write(n as usize, table, bytes))
    }

    fn clause<'a>(&self, n: u32, table: &'a [i32], k: usize) -> &'a [i32] {
        let found = proved::look_up(n as usize, table, k);
        &table[found.from..found.from + found.entries]
    }

    fn build(&self, n: u32, table: &[i32], work: &mut [i32], book: &Book, bytes: &mut [u8]) -> Numbers {
        numbers(proved::build(n as usize, table, &lent_book(book), work, bytes))
    }

    fn fill(&self, n: u32, table: &[i32], work: &mut [i32], book: &Book, values: &[u8], result: &mut [u8]) -> Numbers {
        numbers(proved::fill(n as usize, table, &lent_book(book), work, values, result))
    }

    fn ask(&self, n: u32, table: &[i32], work: &mut [i32], book: &Book, values: &[u8], variable: u32) -> Numbers {
        numbers(proved::ask(n as usize, table, &lent_book(book), work, values, variable as usize))
    }

    fn settle(&self, n: u32, table: &[i32], row: &mut [i32], book: &Book, stands: &mut [u16]) -> Numbers {
        numbers(proved::settle(n as usize, table, &lent_book(book), row, stands))
    }

    fn pin(&self, n: u32, table: &[i32], work: &mut [i32], book: &mut Book, new: i32) -> Numbers {
        over(book, |lent| proved::pin(n as usize, table, lent, work, new))
    }

    fn take_back(&self, book: &mut Book) -> Numbers {
        over(book, proved::take_back)
    }

    fn program(&self, text: &[u8]) -> Vec<u8> {
        let mut out = vec![7; 65_536];
        let answer = proved::program(text, &mut out);
        out.truncate(answer.first);
        out
    }

    fn run(&self, text: &[u8]) -> Vec<u8> {
        proved::run(text).unwrap_or_default()
    }
}
