//! The build program: clause text in, the listing or the X line out.

use crate::book::Book;
use crate::listing::build;
use crate::numbers::{Numbers, ENTRIES, LISTING, WORK};
use crate::text::read;

/// "The build program reads clause text on standard input and prints the listing, or one such line with `X`, number,
/// place. Its listing buffer has 65,536 bytes; a longer listing gives X with 8." It runs with an empty pin book.
pub fn program(text: &[u8]) -> Vec<u8> {
    let mut row = vec![0; ENTRIES];
    let of_text = read(text, &mut row);
    if !of_text.is_accepted() {
        return refusal(of_text);
    }
    let mut listing = vec![0; LISTING];
    let table = &row[..of_text.second];
    let of_build = build(of_text.first as u32, table, &mut vec![0; WORK], &Book::EMPTY, &mut listing);
    if !of_build.is_accepted() {
        return refusal(of_build);
    }
    listing.truncate(of_build.second);
    listing
}

fn refusal(numbers: Numbers) -> Vec<u8> {
    format!("X\t{}\t{}\n", numbers.number, numbers.place).into_bytes()
}
