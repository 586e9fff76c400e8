//! The evenings on both sides of the line, each with the answer that the rules give for it, and the small inputs that
//! tell apart two ways of reading a sentence. The answers stand here as the rules' words say them; none was printed by a
//! builder.

use crate::builder::{Book, Builder, Numbers};
use crate::case::{table_of, Case, Move, Start};

/// What an evening is given and what must come.
pub enum Evening {
    /// A build: n, the table, the held pins; the listing with blanks for tabs, or the X line.
    Build(u32, Vec<i32>, Vec<i32>, String),
    /// A reading and its number and place.
    Refused(Vec<u8>, u32, usize),
    /// A reading that gives n and the entries.
    Read(Vec<u8>, u32, Vec<i32>),
    /// A table check and its number and place.
    Check(u32, Vec<i32>, u32, usize),
    /// A look-up and the stretch's start and end.
    Clause(u32, Vec<i32>, usize, usize, usize),
    /// The build program: text in, bytes out, with blanks for tabs.
    Program(&'static str, String),
    /// Anything else.
    Other(fn(&dyn Builder) -> Result<(), String>),
}

use Evening::{Build, Check, Clause, Other, Program, Read, Refused};

/// All evenings with their names.
pub fn evenings() -> Vec<(&'static str, Evening)> {
    let mut all = starred();
    all.extend(unstarred());
    all.extend(readings());
    all
}

/// The evenings as cases, for all calls. Those that are runs of calls of their own are not among them.
pub fn cases() -> Vec<Case> {
    let case = |(name, evening): (&str, Evening)| match evening {
        Build(n, table, pins, _) => {
            let mut case = Case::of_table(name, 0, n, table);
            case.moves = pins.into_iter().map(Move::Pin).collect();
            case.moves.push(Move::TakeBack);
            Some(case)
        }
        Refused(text, ..) | Read(text, ..) => Some(Case::of_text(name, 0, text)),
        Check(n, table, ..) | Clause(n, table, ..) => {
            let mut case = Case::of_table(name, 0, n.min(1_025), Vec::new());
            case.start = Start::Table { n, table };
            Some(case)
        }
        Program(text, _) => Some(Case::of_text(name, 0, text.as_bytes().to_vec())),
        Other(_) => None,
    };
    evenings().into_iter().filter_map(case).collect()
}

/// Whether a builder answers an evening as the rules do.
pub fn held(builder: &dyn Builder, evening: &Evening) -> Result<(), String> {
    match evening {
        Build(n, table, pins, expected) => same(&built(builder, *n, table, pins), expected),
        Refused(text, number, place) => {
            let mut row = vec![7; 20_000];
            let numbers = builder.read(text, &mut row);
            same(&numbers, &Numbers::refused(*number, *place))?;
            same(&row, &vec![7; 20_000])
        }
        Read(text, n, entries) => {
            let mut row = vec![7; 20_000];
            let numbers = builder.read(text, &mut row);
            same(&numbers, &Numbers::accepted(*n as usize, entries.len()))?;
            same(&row[..entries.len()], &entries[..])
        }
        Check(n, table, number, place) => same(&builder.check(*n, table), &Numbers::refused(*number, *place)),
        Clause(n, table, k, start, end) => {
            same(&builder.clause(*n, table, *k).as_ptr_range(), &table[*start..*end].as_ptr_range())
        }
        Program(text, expected) => {
            let printed = builder.program(text.as_bytes());
            same(&String::from_utf8_lossy(&printed).replace('\t', " "), expected)
        }
        Other(run) => run(builder),
    }
}

fn same<T: PartialEq + std::fmt::Debug + ?Sized>(given: &T, expected: &T) -> Result<(), String> {
    if given == expected {
        return Ok(());
    }
    Err(format!("given {given:?}\n  expected {expected:?}"))
}

/// The listing or the X line of a build with these pins held.
fn built(builder: &dyn Builder, n: u32, table: &[i32], pins: &[i32]) -> String {
    let mut book = Book::EMPTY;
    book.pins[..pins.len()].copy_from_slice(pins);
    book.length = pins.len();
    with_book(builder, n, table, &book)
}

fn with_book(builder: &dyn Builder, n: u32, table: &[i32], book: &Book) -> String {
    let mut work = vec![7; 16_384];
    let mut listing = vec![0; 65_536];
    let numbers = builder.build(n, table, &mut work, book, &mut listing);
    if numbers.number > 0 {
        return format!("X {} {}\n", numbers.number, numbers.place);
    }
    String::from_utf8_lossy(&listing[..numbers.second]).replace('\t', " ")
}

fn lines(lines: &[&str]) -> String {
    lines.iter().map(|line| format!("{line}\n")).collect()
}

fn build(n: u32, clauses: &[&[i32]], pins: &[i32], expected: &[&str]) -> Evening {
    let clauses: Vec<Vec<i32>> = clauses.iter().map(|clause| clause.to_vec()).collect();
    Build(n, table_of(&clauses), pins.to_vec(), lines(expected))
}

const NOR: &[&[i32]] = &[&[1, 2, 3], &[-1, -2], &[-1, -3], &[-2, -3]];
const NOR_LISTING: &[&str] = &["B 3 1 0 0 1 2 1", "G 1 nor 1 2 3", "V 2", "V 3", "R -2 -3"];

fn starred() -> Vec<(&'static str, Evening)> {
    let equal: &[&[i32]] = &[&[-1, 2], &[1, -2]];
    let opposite: &[&[i32]] = &[&[1, 2], &[-1, -2]];
    let xor: &[&[i32]] = &[&[-1, 2, 3], &[1, -2, 3], &[1, 2, -3], &[-1, -2, -3]];
    vec![
        ("no variable, no clause", build(0, &[], &[], &["B 0 1 0 0 0 0 0"])),
        ("an empty clause", build(1, &[&[]], &[], &["X 4 1"])),
        ("a unit and its opposite", build(1, &[&[1], &[-1]], &[], &["X 4 1"])),
        ("both fixed", build(2, &[&[1], &[-1, 2]], &[], &["B 2 1 2 0 0 0 0", "F 1 1", "F 2 1"])),
        ("linked to 1", build(2, equal, &[], &["B 2 2 0 1 0 1 0", "L 2 1", "V 1"])),
        ("linked to -1", build(2, opposite, &[], &["B 2 2 0 1 0 1 0", "L 2 -1", "V 1"])),
        ("all four clauses", build(2, &[equal, opposite].concat(), &[], &["X 4 1"])),
        (
            "links in two rounds",
            build(3, &[&[-1, 2], &[1, -2], &[1, 3], &[-2, -3]], &[], &["B 3 3 0 2 0 1 0", "L 2 1", "L 3 -1", "V 1"]),
        ),
        ("the nor case", build(3, NOR, &[], NOR_LISTING)),
        ("the xor case", build(3, xor, &[], &["B 3 1 0 0 1 2 0", "G 1 xor 1 2 3", "V 2", "V 3"])),
        (
            "the xor case without its last clause",
            build(3, &xor[..3], &[], &["B 3 1 0 0 0 3 3", "V 1", "V 2", "V 3", "R -1 2 3", "R 1 -2 3", "R 1 2 -3"]),
        ),
    ]
}

fn unstarred() -> Vec<(&'static str, Evening)> {
    let text = |rest: &str| format!("p cnf 1 1\n{rest}").into_bytes();
    vec![
        ("a void clause", build(1, &[&[1, -1]], &[], &["B 1 1 0 0 0 1 0", "V 1"])),
        ("the nor case, pin 2", build(3, NOR, &[2], &["B 3 1 3 0 0 0 0", "F 1 0", "F 2 1", "F 3 0"])),
        ("the nor case, pin 2, pin 3, take-back", Other(pins_of_the_nor_case)),
        ("a needless 0", Refused(text("01 0"), 1, 10)),
        ("a literal beyond V", Refused(text("2 0"), 3, 10)),
        ("1 and the end", Refused(text("1"), 3, 11)),
        ("a token after the zero", Refused(text("1 0 1 0"), 3, 14)),
        ("c on a line", Refused(text("c\n"), 1, 10)),
        ("V 1,024", Read(b"p cnf 1024 0\n".to_vec(), 1_024, vec![])),
        ("V 1,025", Refused(b"p cnf 1025 0\n".to_vec(), 2, 6)),
        ("parity over 5", Other(|builder| parity(builder, 5, "G 1 xor 1 2 3 4 5"))),
        ("parity over 6", Other(|builder| parity(builder, 6, "V 1"))),
        (
            "road 4",
            Program(
                "c road 4\np cnf 6 8\n6 0\n1 -2 -3 0\n-1 2 0\n-1 3 0\n1 -2 4 0\n2 -4 0\n-4 5 0\n4 -5 0\n",
                lines(&[
                    "B 6 2 1 1 1 3 2",
                    "F 6 1",
                    "L 5 4",
                    "G 1 and 1 2 3",
                    "V 2",
                    "V 3",
                    "V 4",
                    "R 1 -2 4",
                    "R 2 -4",
                ]),
            ),
        ),
        ("an X line", Program("p cnf 1 1\n2 0", lines(&["X 3 10"]))),
        ("an X line with 4", Program("p cnf 1 1\n0", lines(&["X 4 1"]))),
    ]
}

/// "The nor case, pin 2: 1 and 3 fixed to 0. Pin 3: 4. Take-back: the nor case again."
fn pins_of_the_nor_case(builder: &dyn Builder) -> Result<(), String> {
    let table = table_of(&NOR.iter().map(|clause| clause.to_vec()).collect::<Vec<_>>());
    let mut work = vec![7; 16_384];
    let mut book = Book::EMPTY;
    same(&builder.pin(3, &table, &mut work, &mut book, 2), &Numbers::accepted(0, 0))?;
    let held = book;
    same(&(held.pins[0], held.length), &(2, 1))?;
    same(&builder.pin(3, &table, &mut work, &mut book, 3), &Numbers::refused(4, 1))?;
    same(&book, &held)?;
    same(&builder.take_back(&mut book), &Numbers::accepted(0, 0))?;
    same(&book, &Book::EMPTY)?;
    same(&with_book(builder, 3, &table, &book), &lines(NOR_LISTING))?;
    same(&builder.take_back(&mut book), &Numbers::refused(7, 0))
}

/// The parity group over so many variables with an odd number of negative literals; its second line must be the given.
fn parity(builder: &dyn Builder, k: u32, second: &str) -> Result<(), String> {
    let odd = (0..1_u32 << k).filter(|signs| signs.count_ones() % 2 == 1);
    let clause = |signs: u32| (0..k as i32).map(|at| if signs >> at & 1 == 1 { -at - 1 } else { at + 1 }).collect();
    let table = table_of(&odd.map(clause).collect::<Vec<Vec<i32>>>());
    let listing = built(builder, k, &table, &[]);
    same(listing.lines().nth(1).unwrap_or(""), second)
}

fn repeated(entry: i32, times: usize) -> Vec<i32> {
    vec![entry; times]
}

/// Small inputs on which two readings of a sentence part, or where a slip is likely.
fn readings() -> Vec<(&'static str, Evening)> {
    let refused = |text: &str, number, place| Refused(text.as_bytes().to_vec(), number, place);
    let long = |head: &str, clause: &str, times: usize, rest: &str| {
        let text = [head, &clause.repeat(times), rest].concat();
        text.into_bytes()
    };
    vec![
        ("a header without its LF", Read(b"p cnf 0 0".to_vec(), 0, vec![])),
        ("a first token that only starts with p", refused("pcnf 0 0\n", 1, 0)),
        ("a size and a form fault", refused("p cnf 1025\n", 2, 6)),
        ("ten digits", refused("p cnf 1000000000 0\n", 1, 6)),
        ("nine digits", refused("p cnf 999999999 0\n", 2, 6)),
        ("ten digits in a clause", refused("p cnf 1 1\n-1000000000 0\n", 1, 10)),
        ("nine digits in a clause", refused("p cnf 1 1\n-999999999 0\n", 3, 10)),
        ("C is 0", refused("p cnf 1 0\n1 0\n", 3, 10)),
        ("no number after the C-th zero", refused("p cnf 1 1\n1 0 x", 1, 14)),
        ("the 16,385th entry", Refused(long("p cnf 1 256\n", &("1 ".repeat(63) + "0\n"), 256, "1"), 2, 32_780)),
        ("the 65th literal beyond V", Refused(long("p cnf 1 1\n", "1 ", 64, "2 0\n"), 2, 138)),
        ("64 literals", Read(long("p cnf 1 1\n", "1 ", 64, "0\n"), 1, [repeated(1, 64), vec![0]].concat())),
        ("a vertical tab", refused("p cnf 1 1\n1\x0b0\n", 1, 10)),
        ("a CR ends no line", refused("c x\rp cnf 0 0\n", 1, 14)),
        ("a line that starts with CR", refused("\r\np cnf 0 0\r\n", 1, 0)),
        ("a missing token before CR LF", refused("p cnf 1\r\n", 1, 8)),
        ("an empty text", refused("", 1, 0)),
        ("an empty line", refused("c\n\np cnf 0 0\n", 1, 2)),
        ("only remarks", refused("c\nc", 1, 3)),
        ("a surplus token", refused("p cnf 1 1 1\n1 0", 1, 10)),
        ("a sign in the header", refused("p cnf -1 1\n", 1, 6)),
        ("-0 in a clause", refused("p cnf 1 1\n1 -0\n", 1, 12)),
        ("too few zeros", refused("p cnf 1 2\n1 0\n", 3, 14)),
        ("an overlong text", Refused(vec![b'x'; 65_537], 2, 65_536)),
        ("tabs and CRs part tokens", Read(b"p\tcnf  2\t1\r\n1\r\n-2\t0".to_vec(), 2, vec![1, -2, 0])),
        (
            "the room of a reading",
            Other(|builder| {
                let mut row = [7; 1];
                same(&builder.read(b"p cnf 1 1\n1 0\n", &mut row), &Numbers::refused(8, 2))?;
                same(&row, &[7])
            }),
        ),
        ("a repeated literal counts", Check(1, [repeated(1, 65), vec![0]].concat(), 2, 64)),
        ("a 4,097th clause left open", Check(1, [repeated(0, 4_096), vec![1]].concat(), 3, 4_097)),
        ("a 4,097th clause", Check(1, [repeated(0, 4_096), vec![1, 0]].concat(), 2, 4_097)),
        ("length before entries", Check(1, [vec![2], repeated(0, 16_384)].concat(), 2, 16_384)),
        ("n before length", Check(1_025, repeated(2_000, 20_000), 2, 0)),
        ("the least 32-bit number", Check(1_024, vec![i32::MIN, 0], 3, 0)),
        ("a pin of the least 32-bit number", build(1_024, &[], &[i32::MIN], &["X 5 0"])),
        ("a look-up with n", Clause(1, vec![1, 0, 2, 0], 0, 4, 4)),
        ("a look-up", Clause(2, vec![1, 0, 2, 0], 1, 2, 4)),
        (
            "pins count for no size",
            Build(1, [1, -1, 1, 0].repeat(4_096), repeated(1, 64), lines(&["B 1 1 1 0 0 0 0", "F 1 1"])),
        ),
        (
            "a contradiction in round 2",
            build(4, &[&[-1, 2], &[1, -2], &[1, 2], &[-1, -2, 3], &[-2, -3, 4]], &[-4], &["X 4 2"]),
        ),
        (
            "a contradiction in round 1 by the new pin",
            Other(|builder| {
                let table = [-1, 2, 0, 1, -2, 0, 1, 2, 0, -1, -2, 3, 0, -2, -3, 4, 0];
                let mut book = Book::EMPTY;
                book.pins[0] = -4;
                book.length = 1;
                let before = book;
                same(&builder.pin(4, &table, &mut vec![7; 16_384], &mut book, -1), &Numbers::refused(4, 1))?;
                same(&book, &before)
            }),
        ),
        (
            "a link to a variable fixed later",
            build(2, &[&[-1, 2], &[1, -2], &[1, 2]], &[], &["B 2 2 2 0 0 0 0", "F 1 1", "F 2 1"]),
        ),
        (
            "the level belongs to the finished circuit",
            build(
                5,
                &[&[1, -2, -3], &[-1, 2], &[-1, 3], &[2, -4, -5], &[-2, 4], &[-2, 5]],
                &[],
                &["B 5 1 0 0 2 3 0", "G 1 and 2 4 5", "G 2 and 1 2 3", "V 3", "V 4", "V 5"],
            ),
        ),
        (
            "a ring through two gates",
            build(
                6,
                &[&[1, -2, -4], &[-1, 2], &[-1, 4], &[2, -3, -5], &[-2, 3], &[-2, 5], &[3, -1, -6], &[-3, 1], &[-3, 6]],
                &[],
                &[
                    "B 6 1 0 0 2 4 3",
                    "G 1 and 2 3 5",
                    "G 2 and 1 2 4",
                    "V 3",
                    "V 4",
                    "V 5",
                    "V 6",
                    "R -1 3 -6",
                    "R 1 -3",
                    "R -3 6",
                ],
            ),
        ),
        ("orders of fills and asks", Other(orders)),
        ("orders of pins", Other(orders_of_pins)),
        (
            "a contradiction also returns 0 and 0",
            Other(|builder| {
                let mut listing = [7; 64];
                let numbers = builder.build(1, &[0], &mut vec![7; 16_384], &Book::EMPTY, &mut listing);
                same(&numbers, &Numbers::refused(4, 1))?;
                same(&listing, &[7; 64])
            }),
        ),
        (
            "an ask over three parity gates",
            Other(|builder| {
                let of = |a: i32, b: i32, c: i32| [-a, b, c, 0, a, -b, c, 0, a, b, -c, 0, -a, -b, -c, 0];
                let table = [of(1, 2, 3), of(2, 3, 4), of(3, 4, 5)].concat();
                let mut work = vec![7; 16_384];
                let numbers = builder.ask(5, &table, &mut work, &Book::EMPTY, &[0, 0, 0, 1, 1], 1);
                same(&numbers, &Numbers::accepted(1, 0))
            }),
        ),
    ]
}

fn orders(builder: &dyn Builder) -> Result<(), String> {
    let mut work = vec![7; 16_384];
    let mut result = [7; 2];
    let ask = |n, table: &[i32], work: &mut [i32], values: &[u8], variable| {
        builder.ask(n, table, work, &Book::EMPTY, values, variable)
    };
    // Every free variable's value is looked at.
    same(&ask(2, &[1, 2, 0], &mut work, &[1, 2], 1), &Numbers::refused(10, 2))?;
    // The asked variable goes before the work buffer.
    same(&ask(1, &[], &mut [], &[], 2), &Numbers::refused(5, 0))?;
    same(&ask(1, &[2, 0], &mut [], &[], 2), &Numbers::refused(3, 0))?;
    same(&ask(1, &[], &mut [], &[], 1), &Numbers::refused(9, 16_384))?;
    same(&ask(1, &[], &mut work, &[], 1), &Numbers::refused(8, 1))?;
    let fill = |table: &[i32], work: &mut [i32], values: &[u8], result: &mut [u8]| {
        builder.fill(2, table, work, &Book::EMPTY, values, result)
    };
    // A value at a variable that is not free is no fault; a short buffer goes before it.
    same(&fill(&[1, 0], &mut work, &[9, 1], &mut result), &Numbers::accepted(0, 0))?;
    same(&result, &[1, 1])?;
    same(&fill(&[1, 0], &mut work, &[9, 9], &mut result[..1]), &Numbers::refused(8, 2))?;
    same(&fill(&[1, 0], &mut work, &[9, 9], &mut result), &Numbers::refused(10, 2))?;
    same(&result, &[1, 1])
}

fn orders_of_pins(builder: &dyn Builder) -> Result<(), String> {
    let mut work = vec![7; 16_384];
    let mut pin = |mut book: Book, new| builder.pin(1, &[], &mut work, &mut book, new);
    let full = |pin, length| Book { pins: [pin; 64], length };
    same(&pin(full(0, 65), 0), &Numbers::refused(6, 64))?;
    same(&pin(full(0, 64), 1), &Numbers::refused(5, 0))?;
    same(&pin(full(1, 64), 2), &Numbers::refused(5, 0))?;
    same(&pin(full(1, 64), 1), &Numbers::refused(6, 64))?;
    same(&pin(full(1, 64), -1), &Numbers::refused(6, 64))?;
    same(&pin(full(1, 63), -1), &Numbers::refused(4, 1))?;
    same(&pin(full(1, 63), 1), &Numbers::accepted(0, 0))?;
    // Only the first places are held.
    let mut book = full(99, 1);
    book.pins[0] = 1;
    same(&builder.pin(1, &[], &mut vec![7; 16_384], &mut book, 1), &Numbers::accepted(0, 0))?;
    same(&(book.pins[1], book.pins[2], book.length), &(1, 99, 2))?;
    same(&builder.take_back(&mut book), &Numbers::accepted(0, 0))?;
    same(&(book.pins[1], book.pins[2], book.length), &(0, 99, 1))
}
