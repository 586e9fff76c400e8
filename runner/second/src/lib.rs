//! Choptimber's second program.
//!
//! It follows the rules of the plan builder from the first byte of a clause text to the last byte of a listing, and
//! was written from the rules alone, so that the proved program can be compared with it case by case. One file holds
//! one step; above the code that does a thing stands the sentence of the rules that asks for it.
//!
//! The lent-memory rules hold for every call: "A refusal leaves result buffers and pin book as found. Every lent work
//! buffer is all zero after every call. An accepted call writes the front of its result buffer and nothing behind it".
//! This program keeps its steps in memory of its own; a lent work buffer is measured and wiped, and never filled.

#![forbid(unsafe_code)]

pub mod book;
pub mod classes;
pub mod fill;
pub mod gates;
pub mod kinds;
pub mod listing;
pub mod numbers;
pub mod plan;
pub mod program;
pub mod rounds;
pub mod table;
pub mod text;

pub use book::{pin, take_back, Book};
pub use fill::{ask, fill};
pub use listing::build;
pub use numbers::Numbers;
pub use program::program;
pub use table::{check, clause};
pub use text::{read, write};
