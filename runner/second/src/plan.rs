//! The front of every call that settles a table: the refusals in their order, then the rounds and the gates.
//!
//! "Order for a build: 2 and 3 over the table; 9; 6 if the lent book's length is above 64; 5 if a held pin is 0 or
//! beyond n; 4; 8."

use crate::book::Book;
use crate::gates::{circuit, Circuit};
use crate::numbers::{work_buffer, Numbers, Step, CONTRADICTION, PIN};
use crate::rounds::{settle, Settled};
use crate::table::sound;

/// A table settled with the held pins, and its circuit.
pub struct Plan {
    pub n: u32,
    pub settled: Settled,
    pub circuit: Circuit,
}

/// "2 and 3 over the table; 9; 6 if the lent book's length is above 64; 5 if a held pin is 0 or beyond n": the pins in
/// force where none of these comes.
pub fn lent<'a>(n: u32, table: &[i32], work: &[i32], book: &'a Book) -> Step<&'a [i32]> {
    sound(n, table)?;
    work_buffer(work)?;
    let pins = book.held()?;
    for &pin in pins {
        pin_in_range(n, pin)?;
    }
    Ok(pins)
}

/// "pin or asked variable out of range": a pin that is 0 or beyond n is 5 at 0.
pub fn pin_in_range(n: u32, pin: i32) -> Step<()> {
    if pin == 0 || pin.unsigned_abs() > n {
        return Err(Numbers::refused(PIN, 0));
    }
    Ok(())
}

/// The rounds, with a contradiction as a refusal: "4 | contradiction | the round, from 1".
pub fn rounds(n: u32, table: &[i32], pins: &[i32]) -> Step<Settled> {
    settle(n, table, pins).map_err(|round| Numbers::refused(CONTRADICTION, round))
}

/// A build up to 4. The work buffer is wiped whatever comes.
pub fn plan(n: u32, table: &[i32], work: &mut [i32], book: &Book) -> Step<Plan> {
    work.fill(0);
    let pins = lent(n, table, work, book)?;
    let settled = rounds(n, table, pins)?;
    let circuit = circuit(&settled);
    Ok(Plan { n, settled, circuit })
}
