//! Filling in all variables from values of the free ones, and asking for one variable.

use crate::book::Book;
use crate::numbers::{plain, room, Numbers, Step, PIN, VALUE};
use crate::plan::{plan, Plan};
use crate::rounds::Part;
use crate::table::sound;

/// Fills in: "a fill n bytes 0 or 1 by variable".
pub fn fill(n: u32, table: &[i32], work: &mut [i32], book: &Book, values: &[u8], result: &mut [u8]) -> Numbers {
    let call = plan(n, table, work, book).and_then(|plan| {
        let filled = filled(&plan, values, result.len())?;
        result[..filled.len()].copy_from_slice(&filled);
        Ok(Numbers::accepted(0, 0))
    });
    plain(call)
}

/// Asks for one variable: "Ask: as fill without a result buffer, with 5 for variable 0 or beyond n after 3", so before
/// 9. "the answer equals the filled-in place", and is taken from there; every free variable's value is looked at.
pub fn ask(n: u32, table: &[i32], work: &mut [i32], book: &Book, values: &[u8], variable: u32) -> Numbers {
    work.fill(0);
    let call = sound(n, table).and_then(|()| {
        if variable == 0 || variable > n {
            return Err(Numbers::refused(PIN, 0));
        }
        let plan = plan(n, table, work, book)?;
        let filled = filled(&plan, values, n as usize)?;
        Ok(Numbers::accepted(usize::from(filled[variable as usize - 1]), 0))
    });
    plain(call)
}

/// "Fill: as a build up to 4, then 8 (given values or result under n bytes, room n), then 10": the refusals behind the
/// plan, then the values.
fn filled(plan: &Plan, values: &[u8], result: usize) -> Step<Vec<u8>> {
    let n = plan.n as usize;
    room(values.len().min(result), n)?;
    // "value of a free variable neither 0 nor 1 | the lowest such variable". "Values given for variables that are not
    // free are ignored."
    for &variable in &plan.circuit.free {
        if values[variable as usize - 1] > 1 {
            return Err(Numbers::refused(VALUE, variable as usize));
        }
    }
    Ok(assignment(plan, values))
}

/// The value of every variable: free ones as given, fixed ones as fixed, gates by rising level, links last.
pub fn assignment(plan: &Plan, values: &[u8]) -> Vec<u8> {
    let mut holds = vec![false; plan.settled.parts.len()];
    for &variable in &plan.circuit.free {
        holds[variable as usize] = values[variable as usize - 1] == 1;
    }
    for gate in &plan.circuit.gates {
        let value = gate.kind.value(&gate.inputs, |input| literal(&holds, input));
        holds[gate.output as usize] = value;
    }
    for (variable, part) in plan.settled.parts.iter().enumerate().skip(1) {
        match *part {
            Part::Fixed(value) => holds[variable] = value,
            Part::Linked(root) => holds[variable] = literal(&holds, root),
            Part::Root => {}
        }
    }
    holds[1..].iter().map(|&value| u8::from(value)).collect()
}

/// The value of a literal.
fn literal(holds: &[bool], literal: i32) -> bool {
    holds[literal.unsigned_abs() as usize] == (literal > 0)
}
