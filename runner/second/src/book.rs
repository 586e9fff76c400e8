//! The pin book: one record of 64 places and a length, with a pin that is put and one that is taken back.
//!
//! "The pin book is one record that a pin or a take-back changes. A pin put twice is held twice." Only the first `length`
//! places are held pins; what stands behind them is neither read nor changed, but for the place that a pin writes or a
//! take-back frees.

use crate::numbers::{plain, Numbers, Step, BOOK, NOTHING, PINS};
use crate::plan::{lent, pin_in_range, rounds};

#[derive(Clone, Copy, Debug, PartialEq, Eq)]
pub struct Book {
    pub pins: [i32; PINS],
    pub length: usize,
}

impl Book {
    pub const EMPTY: Book = Book { pins: [0; PINS], length: 0 };

    /// The held pins: "6 | pin book full, or its length is above 64 | 64".
    pub fn held(&self) -> Step<&[i32]> {
        self.pins.get(..self.length).ok_or(Numbers::refused(BOOK, PINS))
    }
}

/// Puts a pin: "A pin: 2, 3, 9, 6 for a length above 64, 5 for held pins, 5 for the new one, 6 if 64 are held, 4."
/// "a pin writes the first place past the length".
pub fn pin(n: u32, table: &[i32], work: &mut [i32], book: &mut Book, new: i32) -> Numbers {
    work.fill(0);
    let call = lent(n, table, work, book).and_then(|held| {
        pin_in_range(n, new)?;
        if held.len() == PINS {
            return Err(Numbers::refused(BOOK, PINS));
        }
        rounds(n, table, &[held, &[new]].concat())?;
        Ok(Numbers::accepted(0, 0))
    });
    if call.is_ok() {
        book.pins[book.length] = new;
        book.length += 1;
    }
    plain(call)
}

/// Takes the last pin back: "A take-back reads the book only: 7 at length 0, 6 above 64." "A take-back sets the freed
/// place to 0".
pub fn take_back(book: &mut Book) -> Numbers {
    if book.length == 0 {
        return Numbers::refused(NOTHING, 0);
    }
    if book.length > PINS {
        return Numbers::refused(BOOK, PINS);
    }
    book.length -= 1;
    book.pins[book.length] = 0;
    Numbers::accepted(0, 0)
}

#[cfg(test)]
mod tests {
    use super::*;

    #[test]
    fn what_stands_behind_the_length_stays() {
        let mut book = Book::EMPTY;
        book.pins[..3].copy_from_slice(&[1, 2, 99]);
        book.length = 2;
        assert_eq!(take_back(&mut book), Numbers::accepted(0, 0));
        assert_eq!(book.length, 1);
        assert_eq!(book.pins[..4], [1, 0, 99, 0]);
    }

    #[test]
    fn a_length_above_64() {
        let mut book = Book { pins: [0; PINS], length: 65 };
        let before = book;
        assert_eq!(take_back(&mut book), Numbers::refused(6, 64));
        assert_eq!(pin(1, &[], &mut [0; 16_384], &mut book, 0), Numbers::refused(6, 64));
        assert_eq!(book, before);
    }
}
