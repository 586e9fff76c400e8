//! The proved calls, over plain slices.
//!
//! Each function here calls one export of the crate `boundary` and is safe to call with anything: no export requires
//! more of its caller than what the types of its arguments say. The declarations below are written by hand to fit
//! crates/boundary/src, and nothing compares the two; this is the only place of the runner with `unsafe` in it.

use std::io::{self, Write};
use std::path::{Path, PathBuf};
use std::process::{Command, Stdio};

/// What a call returns: the rules' number with its place, and two values that an accepted call also returns.
#[repr(C)]
#[derive(Clone, Copy, Debug, PartialEq, Eq)]
pub struct Answer {
    pub number: u32,
    pub place: usize,
    pub first: usize,
    pub second: usize,
}

/// A stretch of a lent table: the place of its first entry, and how many entries it has.
#[repr(C)]
#[derive(Clone, Copy, Debug, PartialEq, Eq)]
pub struct Stretch {
    pub from: usize,
    pub entries: usize,
}

/// The pin book: 64 places, and how many of them are held.
#[repr(C)]
#[derive(Clone, Copy, Debug, PartialEq, Eq)]
pub struct LentBook {
    pub pins: [i32; 64],
    pub held: usize,
}

// A slice crosses as a pointer and then a length.
unsafe extern "C" {
    fn choptimber_check(n: usize, table: *const i32, entries: usize) -> Answer;
    fn choptimber_look_up(n: usize, table: *const i32, entries: usize, k: usize) -> Stretch;
    fn choptimber_read(text: *const u8, bytes: usize, row: *mut i32, room: usize) -> Answer;
    fn choptimber_write(n: usize, table: *const i32, entries: usize, out: *mut u8, room: usize) -> Answer;
    fn choptimber_settle(
        n: usize,
        table: *const i32,
        entries: usize,
        book: *const LentBook,
        row: *mut i32,
        room: usize,
        stands: *mut u16,
        places: usize,
    ) -> Answer;
    fn choptimber_pin(
        n: usize,
        table: *const i32,
        entries: usize,
        book: *mut LentBook,
        work: *mut i32,
        room: usize,
        entry: i32,
    ) -> Answer;
    fn choptimber_take_back(book: *mut LentBook) -> Answer;
    fn choptimber_program(text: *const u8, bytes: usize, out: *mut u8, room: usize) -> Answer;
    fn choptimber_build(
        n: usize,
        table: *const i32,
        entries: usize,
        book: *const LentBook,
        work: *mut i32,
        room: usize,
        out: *mut u8,
        bytes: usize,
    ) -> Answer;
    fn choptimber_fill(
        n: usize,
        table: *const i32,
        entries: usize,
        book: *const LentBook,
        work: *mut i32,
        room: usize,
        given: *const u8,
        givens: usize,
        values: *mut u8,
        places: usize,
    ) -> Answer;
    fn choptimber_ask(
        n: usize,
        table: *const i32,
        entries: usize,
        book: *const LentBook,
        work: *mut i32,
        room: usize,
        given: *const u8,
        givens: usize,
        variable: usize,
    ) -> Answer;
}

// SAFETY, of every call below: the declaration fits the export, which requires nothing; each pointer goes with the length
// of the same slice, borrowed for the call, and a `&mut` is lent to this call alone; no export keeps a pointer.

/// The table check.
pub fn check(n: usize, table: &[i32]) -> Answer {
    unsafe { choptimber_check(n, table.as_ptr(), table.len()) }
}

/// The look-up of clause number k, from 0: where its stretch stands in the table.
pub fn look_up(n: usize, table: &[i32], k: usize) -> Stretch {
    unsafe { choptimber_look_up(n, table.as_ptr(), table.len(), k) }
}

/// Reads clause text; also returns n and the entries.
pub fn read(text: &[u8], row: &mut [i32]) -> Answer {
    unsafe { choptimber_read(text.as_ptr(), text.len(), row.as_mut_ptr(), row.len()) }
}

/// Writes a table as clause text; also returns the bytes.
pub fn write(n: usize, table: &[i32], out: &mut [u8]) -> Answer {
    unsafe { choptimber_write(n, table.as_ptr(), table.len(), out.as_mut_ptr(), out.len()) }
}

/// Settles a table with the held pins; also returns the rounds, and how many entries of the row are the settled table.
/// The front of `stands`, a place for each variable and place 0, says what each stands for.
pub fn settle(n: usize, table: &[i32], book: &LentBook, row: &mut [i32], stands: &mut [u16]) -> Answer {
    let (room, places) = (row.len(), stands.len());
    unsafe {
        choptimber_settle(n, table.as_ptr(), table.len(), book, row.as_mut_ptr(), room, stands.as_mut_ptr(), places)
    }
}

/// Puts a pin into a lent book.
pub fn pin(n: usize, table: &[i32], book: &mut LentBook, work: &mut [i32], entry: i32) -> Answer {
    unsafe { choptimber_pin(n, table.as_ptr(), table.len(), book, work.as_mut_ptr(), work.len(), entry) }
}

/// Takes the last pin back.
pub fn take_back(book: &mut LentBook) -> Answer {
    unsafe { choptimber_take_back(book) }
}

/// Builds, and prints the listing; also returns the rounds and the bytes.
pub fn build(n: usize, table: &[i32], book: &LentBook, work: &mut [i32], out: &mut [u8]) -> Answer {
    let (room, bytes) = (work.len(), out.len());
    unsafe { choptimber_build(n, table.as_ptr(), table.len(), book, work.as_mut_ptr(), room, out.as_mut_ptr(), bytes) }
}

/// Fills in all variables from values for the free ones.
pub fn fill(n: usize, table: &[i32], book: &LentBook, work: &mut [i32], given: &[u8], values: &mut [u8]) -> Answer {
    let (entries, room, places) = (table.len(), work.len(), values.len());
    let (table, work) = (table.as_ptr(), work.as_mut_ptr());
    let (values, givens) = (values.as_mut_ptr(), given.len());
    unsafe { choptimber_fill(n, table, entries, book, work, room, given.as_ptr(), givens, values, places) }
}

/// Asks for one variable; also returns its value.
pub fn ask(n: usize, table: &[i32], book: &LentBook, work: &mut [i32], given: &[u8], variable: usize) -> Answer {
    let (entries, room, givens) = (table.len(), work.len(), given.len());
    let (table, work) = (table.as_ptr(), work.as_mut_ptr());
    unsafe { choptimber_ask(n, table, entries, book, work, room, given.as_ptr(), givens, variable) }
}

/// What the build program prints for a text, into a buffer of 65,536 bytes; also returns the bytes.
pub fn program(text: &[u8], out: &mut [u8]) -> Answer {
    unsafe { choptimber_program(text.as_ptr(), text.len(), out.as_mut_ptr(), out.len()) }
}

/// Where the toolchain leaves the build program.
pub fn program_file() -> PathBuf {
    Path::new(env!("CARGO_MANIFEST_DIR")).join("../../crates/choptimber/out/choptimber")
}

/// The build program itself, run on a text: what it prints on standard output.
pub fn run(text: &[u8]) -> io::Result<Vec<u8>> {
    let mut running = Command::new(program_file()).stdin(Stdio::piped()).stdout(Stdio::piped()).spawn()?;
    if let Some(mut input) = running.stdin.take() {
        // It stops reading behind the first byte that is too many.
        let _ = input.write_all(text);
    }
    Ok(running.wait_with_output()?.stdout)
}
