//! The checks are only worth something if they catch builders that are wrong. Each impostor here answers one thing
//! otherwise than the rules; all of them must be caught on the fixed seeds, and the cutter must bring a caught case down.

use cases::builder::{Book, Builder, Numbers, Second};
use cases::case::{Case, Move, Start};
use cases::checks::small_case;
use cases::compare::compare;
use cases::cut::cut;
use cases::small::small;
use cases::texts::damaged;
use cases::words::Words;

#[derive(Clone, Copy, Debug, PartialEq)]
enum Twist {
    /// Refuses always.
    Refuses,
    /// Prints one listing always.
    OneListing,
    /// Leaves all variables free and the table with its pins as residue.
    AllFree,
    /// Books the first pin and only nods at later ones.
    FirstPin,
    /// Invents the number of rounds.
    Rounds,
    /// Writes a byte behind the listing.
    Behind,
    /// Writes into the result buffer before it refuses.
    Early,
    /// Leaves an entry in a work buffer that is too short.
    Work,
    /// Books a pin that it refuses.
    Books,
    /// Leaves a pin in its place when it is taken back.
    Keeps,
    /// Gives the room of a fill as its buffer's length.
    Room,
    /// Answers an ask with the value given.
    Given,
    /// Loses the last residue clause.
    Residue,
    /// Gives the clause without its zero.
    Stretch,
}

const TWISTS: [Twist; 14] = [
    Twist::Refuses,
    Twist::OneListing,
    Twist::AllFree,
    Twist::FirstPin,
    Twist::Rounds,
    Twist::Behind,
    Twist::Early,
    Twist::Work,
    Twist::Books,
    Twist::Keeps,
    Twist::Room,
    Twist::Given,
    Twist::Residue,
    Twist::Stretch,
];

struct Impostor(Twist);

/// Prints a listing of its own instead of the build's.
fn print(bytes: &mut [u8], listing: &str, rounds: usize) -> Numbers {
    if bytes.len() < listing.len() {
        return Numbers::refused(8, listing.len());
    }
    bytes[..listing.len()].copy_from_slice(listing.as_bytes());
    Numbers::accepted(rounds, listing.len())
}

/// All variables free, the table and its pins as residue.
fn all_free(n: u32, table: &[i32], pins: &[i32]) -> String {
    let units: Vec<i32> = pins.iter().flat_map(|pin| [*pin, 0]).collect();
    let rows: Vec<i32> = [table, &units].concat();
    let clauses = rows.split_inclusive(|&entry| entry == 0);
    let mut listing = format!("B\t{n}\t1\t0\t0\t0\t{n}\t{}\n", clauses.clone().count());
    for variable in 1..=n {
        listing.push_str(&format!("V\t{variable}\n"));
    }
    for clause in clauses {
        let mut row = clause[..clause.len() - 1].to_vec();
        row.sort_by_key(|literal| literal.abs());
        listing.push_str(&format!("R{}\n", row.iter().map(|literal| format!("\t{literal}")).collect::<String>()));
    }
    listing
}

impl Builder for Impostor {
    fn name(&self) -> &str {
        "impostor"
    }

    fn check(&self, n: u32, table: &[i32]) -> Numbers {
        match self.0 {
            Twist::Refuses => Numbers::refused(2, 0),
            _ => Second.check(n, table),
        }
    }

    fn read(&self, text: &[u8], row: &mut [i32]) -> Numbers {
        if self.0 == Twist::Early {
            if let Some(first) = row.first_mut() {
                *first = 1;
            }
        }
        Second.read(text, row)
    }

    fn write(&self, n: u32, table: &[i32], bytes: &mut [u8]) -> Numbers {
        Second.write(n, table, bytes)
    }

    fn clause<'a>(&self, n: u32, table: &'a [i32], k: usize) -> &'a [i32] {
        let found = Second.clause(n, table, k);
        match self.0 {
            Twist::Stretch if !found.is_empty() => &found[..found.len() - 1],
            _ => found,
        }
    }

    fn build(&self, n: u32, table: &[i32], work: &mut [i32], book: &Book, bytes: &mut [u8]) -> Numbers {
        let numbers = Second.build(n, table, work, book, bytes);
        if self.0 == Twist::Refuses {
            return Numbers::refused(4, 1);
        }
        if self.0 == Twist::Work && work.len() < 16_384 && !work.is_empty() {
            work[0] = 1;
        }
        if !numbers.is_accepted() {
            return numbers;
        }
        let printed = String::from_utf8_lossy(&bytes[..numbers.second]).into_owned();
        match self.0 {
            Twist::OneListing => print(bytes, "B\t0\t1\t0\t0\t0\t0\t0\n", 1),
            Twist::AllFree => print(bytes, &all_free(n, table, &book.pins[..book.length]), 1),
            Twist::Rounds => {
                let line = |rounds| format!("B\t{n}\t{rounds}\t");
                let listing = printed.replacen(&line(numbers.first), &line(numbers.first + 1), 1);
                print(bytes, &listing, numbers.first + 1)
            }
            Twist::Behind => {
                if let Some(behind) = bytes.get_mut(numbers.second) {
                    *behind = b'\n';
                }
                numbers
            }
            Twist::Residue => match printed.rfind("R\t") {
                Some(at) => print(bytes, &printed[..at], numbers.first),
                None => numbers,
            },
            _ => numbers,
        }
    }

    fn fill(&self, n: u32, table: &[i32], work: &mut [i32], book: &Book, values: &[u8], result: &mut [u8]) -> Numbers {
        let mut numbers = Second.fill(n, table, work, book, values, result);
        if self.0 == Twist::AllFree && numbers.is_accepted() {
            result[..n as usize].copy_from_slice(&values[..n as usize]);
        }
        if self.0 == Twist::Room && numbers.number == 8 {
            numbers.place = result.len();
        }
        numbers
    }

    fn ask(&self, n: u32, table: &[i32], work: &mut [i32], book: &Book, values: &[u8], variable: u32) -> Numbers {
        let mut numbers = Second.ask(n, table, work, book, values, variable);
        if self.0 == Twist::Given && numbers.is_accepted() {
            numbers.first = usize::from(values[variable as usize - 1]);
        }
        numbers
    }

    fn pin(&self, n: u32, table: &[i32], work: &mut [i32], book: &mut Book, new: i32) -> Numbers {
        let before = *book;
        let numbers = Second.pin(n, table, work, book, new);
        match self.0 {
            Twist::FirstPin if before.length > 0 => *book = before,
            Twist::Books if numbers.number == 4 => book.pins[book.length] = new,
            _ => {}
        }
        numbers
    }

    fn take_back(&self, book: &mut Book) -> Numbers {
        let before = *book;
        let numbers = Second.take_back(book);
        if self.0 == Twist::Keeps {
            book.pins = before.pins;
        }
        numbers
    }

    fn program(&self, text: &[u8]) -> Vec<u8> {
        Second.program(text)
    }
}

/// Small tables and texts from fixed seeds.
fn fixed() -> impl Iterator<Item = Case> {
    (1..200).flat_map(|seed| [small(seed, 7), damaged(seed)])
}

/// The first of the fixed cases on which a builder is caught.
fn caught(builder: &dyn Builder) -> Option<Case> {
    let words = Words::default();
    fixed().find(|case| small_case(builder, &words, case).is_err())
}

#[test]
fn every_impostor_is_caught() {
    for twist in TWISTS {
        assert!(caught(&Impostor(twist)).is_some(), "{twist:?}");
    }
}

#[test]
fn comparison_alone_finds_every_impostor() {
    for twist in TWISTS {
        let found = fixed().any(|case| compare(&Second, &Impostor(twist), &case).is_err());
        assert!(found, "{twist:?}");
    }
}

/// The case left when a caught one is cut down.
fn cut_down(twist: Twist) -> Case {
    let words = Words::default();
    let builder = Impostor(twist);
    let case = caught(&builder).expect("caught");
    cut(&case, &|case| small_case(&builder, &words, case).is_err())
}

#[test]
fn a_nod_is_cut_down_to_an_empty_table() {
    let case = cut_down(Twist::FirstPin);
    assert!(case.size() == 0 && case.moves.len() + case.book.length <= 2, "{case}");
}

#[test]
fn a_lost_residue_clause_is_cut_down_to_one_clause() {
    let case = cut_down(Twist::Residue);
    let Start::Table { n, table } = &case.start else {
        panic!("a table was given");
    };
    assert!((*n, table.len()) == (2, 3), "{case}");
}

#[test]
fn an_answer_with_the_given_value_is_cut_down() {
    let case = cut_down(Twist::Given);
    assert!(case.size() <= 16 && case.moves.is_empty(), "{case}");
}

#[test]
fn a_case_shows_all_that_it_holds() {
    let mut case = Case::of_table("shown", 5, 2, vec![1, -2, 0, 0]);
    case.moves = vec![Move::Pin(2), Move::TakeBack];
    let shown = case.to_string();
    assert_eq!(shown, "c family shown seed 5\nc moves: pin 2, take back\np cnf 2 2\n1 -2 0\n0\n");
}
