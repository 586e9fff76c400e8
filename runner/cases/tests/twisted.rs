//! The comparison of the proved calls with the second program is only worth something if a wrong call is found. Each twist
//! here changes one thing in what a proved call answers or leaves behind; the first cases of the comparison must find it.

use cases::builder::{Book, Builder, Call, Numbers, Proved, Second};
use cases::compare::compare;
use cases::families::of_seed;

#[derive(Clone, Copy, Debug, PartialEq)]
enum Twist {
    CheckPlace,
    Stretch,
    ReadBehind,
    ReadEarly,
    WriteLength,
    Rounds,
    Stands,
    SettledTable,
    BehindStands,
    Books,
    PinWork,
    Freed,
    Listing,
    BuildWork,
    FillValue,
    AskValue,
    Printed,
}

const TWISTS: [Twist; 17] = [
    Twist::CheckPlace,
    Twist::Stretch,
    Twist::ReadBehind,
    Twist::ReadEarly,
    Twist::WriteLength,
    Twist::Rounds,
    Twist::Stands,
    Twist::SettledTable,
    Twist::BehindStands,
    Twist::Books,
    Twist::PinWork,
    Twist::Freed,
    Twist::Listing,
    Twist::BuildWork,
    Twist::FillValue,
    Twist::AskValue,
    Twist::Printed,
];

struct Twisted(Twist);

impl Twisted {
    /// Changes an entry of a row, if the row has it.
    fn spoil<T>(&self, twist: Twist, row: &mut [T], place: usize, entry: T) {
        if let (true, Some(old)) = (self.0 == twist, row.get_mut(place)) {
            *old = entry;
        }
    }
}

impl Builder for Twisted {
    fn name(&self) -> &str {
        "twisted"
    }

    fn has(&self, call: Call) -> bool {
        call != Call::Run && Proved.has(call)
    }

    fn check(&self, n: u32, table: &[i32]) -> Numbers {
        let mut numbers = Proved.check(n, table);
        numbers.place += usize::from(self.0 == Twist::CheckPlace && numbers.number == 3);
        numbers
    }

    fn read(&self, text: &[u8], row: &mut [i32]) -> Numbers {
        let numbers = Proved.read(text, row);
        match numbers.is_accepted() {
            true => self.spoil(Twist::ReadBehind, row, numbers.second, 0),
            false => self.spoil(Twist::ReadEarly, row, 0, 0),
        }
        numbers
    }

    fn write(&self, n: u32, table: &[i32], bytes: &mut [u8]) -> Numbers {
        let mut numbers = Proved.write(n, table, bytes);
        numbers.first -= usize::from(self.0 == Twist::WriteLength && numbers.is_accepted());
        numbers
    }

    fn clause<'a>(&self, n: u32, table: &'a [i32], k: usize) -> &'a [i32] {
        let found = Proved.clause(n, table, k);
        &found[..found.len() - usize::from(self.0 == Twist::Stretch && !found.is_empty())]
    }

    fn settle(&self, n: u32, table: &[i32], row: &mut [i32], book: &Book, stands: &mut [u16]) -> Numbers {
        let mut numbers = Proved.settle(n, table, row, book, stands);
        if numbers.is_accepted() {
            numbers.first += usize::from(self.0 == Twist::Rounds);
            self.spoil(Twist::Stands, stands, n as usize, 1);
            self.spoil(Twist::SettledTable, &mut row[..numbers.second], 0, 1);
            self.spoil(Twist::BehindStands, stands, n as usize + 1, 1);
        }
        numbers
    }

    fn build(&self, n: u32, table: &[i32], work: &mut [i32], book: &Book, bytes: &mut [u8]) -> Numbers {
        let numbers = Proved.build(n, table, work, book, bytes);
        if numbers.is_accepted() {
            self.spoil(Twist::Listing, bytes, numbers.second - 1, b' ');
        }
        self.spoil(Twist::BuildWork, work, 16_383, 1);
        numbers
    }

    fn fill(&self, n: u32, table: &[i32], work: &mut [i32], book: &Book, values: &[u8], result: &mut [u8]) -> Numbers {
        let numbers = Proved.fill(n, table, work, book, values, result);
        if numbers.is_accepted() && n > 0 {
            let value = 1 - result[0];
            self.spoil(Twist::FillValue, result, 0, value);
        }
        numbers
    }

    fn ask(&self, n: u32, table: &[i32], work: &mut [i32], book: &Book, values: &[u8], variable: u32) -> Numbers {
        let mut numbers = Proved.ask(n, table, work, book, values, variable);
        if self.0 == Twist::AskValue && numbers.is_accepted() {
            numbers.first = 1 - numbers.first;
        }
        numbers
    }

    fn pin(&self, n: u32, table: &[i32], work: &mut [i32], book: &mut Book, new: i32) -> Numbers {
        let before = *book;
        let numbers = Proved.pin(n, table, work, book, new);
        if self.0 == Twist::Books {
            *book = before;
        }
        let last = work.len() - 1;
        self.spoil(Twist::PinWork, work, last, 1);
        numbers
    }

    fn take_back(&self, book: &mut Book) -> Numbers {
        let numbers = Proved.take_back(book);
        if numbers.is_accepted() {
            self.spoil(Twist::Freed, &mut book.pins, book.length, 1);
        }
        numbers
    }

    fn program(&self, text: &[u8]) -> Vec<u8> {
        let mut printed = Proved.program(text);
        self.spoil(Twist::Printed, &mut printed, 0, b'Y');
        printed
    }
}

#[test]
fn every_twist_is_found() {
    for twist in TWISTS {
        let found = (1..64).flat_map(of_seed).any(|case| compare(&Twisted(twist), &Second, &case).is_err());
        assert!(found, "{twist:?}");
    }
}

#[test]
fn the_proved_calls_themselves_are_not() {
    for case in (1..64).flat_map(of_seed) {
        assert!(compare(&Proved, &Second, &case).is_ok(), "{case}");
    }
}
