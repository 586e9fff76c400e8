//! Cases for Choptimber's programs: made from seeds, run through all calls, checked against the words of the rules and
//! the demands, compared between two builders, and cut down where they fail.

#![forbid(unsafe_code)]

pub mod builder;
pub mod case;
pub mod checks;
pub mod compare;
pub mod cut;
pub mod demands;
pub mod evenings;
pub mod families;
pub mod lent;
pub mod random;
pub mod run;
pub mod shown;
pub mod small;
pub mod texts;
pub mod time;
pub mod words;
pub mod yards;
