//! The listing, and the build that prints it into a lent buffer.
//!
//! "One record a line, fields parted by tabs .., each line ended by LF".

use crate::book::Book;
use crate::numbers::{plain, room, Numbers};
use crate::plan::{plan, Plan};
use crate::rounds::Part;
use std::fmt::Write;

/// Builds the plan of a table with the pins in force and prints its listing. Accepted, it returns the rounds and the
/// bytes written.
pub fn build(n: u32, table: &[i32], work: &mut [i32], book: &Book, bytes: &mut [u8]) -> Numbers {
    let call = plan(n, table, work, book).and_then(|plan| {
        let listing = listing(&plan);
        room(bytes.len(), listing.len())?;
        bytes[..listing.len()].copy_from_slice(listing.as_bytes());
        Ok(Numbers::accepted(plan.settled.rounds, listing.len()))
    });
    plain(call)
}

/// Writes one record: its letter, then its fields, each behind a tab.
fn record<T: ToString>(listing: &mut String, letter: &str, fields: impl IntoIterator<Item = T>) {
    listing.push_str(letter);
    for field in fields {
        listing.push('\t');
        listing.push_str(&field.to_string());
    }
    listing.push('\n');
}

/// The listing of a plan.
pub fn listing(plan: &Plan) -> String {
    let Plan { n, settled, circuit } = plan;
    let parts = || settled.parts.iter().enumerate().skip(1);
    let mut listing = String::new();
    // "B: variables, rounds, fixed, linked, gates, free, residue clauses."
    let counts = [
        *n as usize,
        settled.rounds,
        parts().filter(|(_, part)| matches!(part, Part::Fixed(_))).count(),
        parts().filter(|(_, part)| matches!(part, Part::Linked(_))).count(),
        circuit.gates.len(),
        circuit.free.len(),
        circuit.residue.len(),
    ];
    record(&mut listing, "B", counts);
    // "F: variable, 0 or 1; rising."
    for (variable, part) in parts() {
        if let Part::Fixed(value) = part {
            record(&mut listing, "F", [variable, usize::from(*value)]);
        }
    }
    // "L: variable, root literal; rising."
    for (variable, part) in parts() {
        if let Part::Linked(literal) = part {
            record(&mut listing, "L", [variable as i32, *literal]);
        }
    }
    // "G: level, kind, output variable, inputs by rising variable; by level, then output."
    for gate in &circuit.gates {
        // Writing to a string can't fail.
        let _ = write!(listing, "G\t{}\t{}", gate.level, gate.kind.name());
        record(&mut listing, "", std::iter::once(gate.output).chain(gate.inputs.iter().copied()));
    }
    // "V: free variable; rising."
    for &variable in &circuit.free {
        record(&mut listing, "V", [variable]);
    }
    // "R: a residue clause's literals."
    for &place in &circuit.residue {
        record(&mut listing, "R", settled.clauses[place].iter().copied());
    }
    listing
}
