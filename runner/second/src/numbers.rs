//! The sizes of the rules, and the numbers that every call returns.

/// "Variables n: 0 to 1,024, numbered from 1."
pub const VARIABLES: u32 = 1_024;
/// "At most 4,096 clauses".
pub const CLAUSES: usize = 4_096;
/// "16,384 entries with the zeros".
pub const ENTRIES: usize = 16_384;
/// "64 literals in a clause".
pub const WIDTH: usize = 64;
/// "Text: at most 65,536 bytes."
pub const TEXT: usize = 65_536;
/// "Pins in force: at most 64."
pub const PINS: usize = 64;
/// "Work buffer: 16,384 signed 32-bit entries."
pub const WORK: usize = 16_384;
/// "Its listing buffer has 65,536 bytes".
pub const LISTING: usize = 65_536;

/// "text not of the format"
pub const FORM: u32 = 1;
/// "a size above is passed"
pub const SIZE: u32 = 2;
/// "literal beyond n, unfinished clause, clause number not as declared"
pub const RANGE: u32 = 3;
/// "contradiction"
pub const CONTRADICTION: u32 = 4;
/// "pin or asked variable out of range"
pub const PIN: u32 = 5;
/// "pin book full, or its length is above 64"
pub const BOOK: u32 = 6;
/// "nothing to take back"
pub const NOTHING: u32 = 7;
/// "result or value buffer short"
pub const ROOM: u32 = 8;
/// "work buffer short"
pub const SHORT: u32 = 9;
/// "value of a free variable neither 0 nor 1"
pub const VALUE: u32 = 10;

/// What a call returns: the number with its place and, where the call was accepted, up to two numbers more.
///
/// "Also returned: a build's rounds and bytes, a writing's bytes, a reading's n and entries, an ask's value; 0 each on
/// a refusal." They stand in `first` and `second` in this order.
#[derive(Clone, Copy, Debug, Default, PartialEq, Eq)]
pub struct Numbers {
    pub number: u32,
    pub place: usize,
    pub first: usize,
    pub second: usize,
}

impl Numbers {
    /// "0 | accepted | 0", with what is also returned.
    pub fn accepted(first: usize, second: usize) -> Numbers {
        Numbers { number: 0, place: 0, first, second }
    }

    /// A refusal by its number and place.
    pub fn refused(number: u32, place: usize) -> Numbers {
        Numbers { number, place, first: 0, second: 0 }
    }

    pub fn is_accepted(&self) -> bool {
        self.number == 0
    }
}

/// A step that may be refused: what it found, or the refusal.
pub type Step<T> = Result<T, Numbers>;

/// A finished call, accepted or refused, as plain numbers.
pub fn plain(call: Step<Numbers>) -> Numbers {
    match call {
        Ok(numbers) | Err(numbers) => numbers,
    }
}

/// "9 | work buffer short | 16,384".
pub fn work_buffer(work: &[i32]) -> Step<()> {
    if work.len() < WORK {
        return Err(Numbers::refused(SHORT, WORK));
    }
    Ok(())
}

/// "8 | result or value buffer short | room needed".
pub fn room(lent: usize, needed: usize) -> Step<()> {
    if lent < needed {
        return Err(Numbers::refused(ROOM, needed));
    }
    Ok(())
}
