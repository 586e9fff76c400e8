//! The rules once more, said as plainly and slowly as the words say them.
//!
//! This third reading shares no step with the second program: clauses are sets, the forced literals a fixpoint over all
//! clauses, equal clauses and pairs are looked for among all pairs, faults are gathered and the first one picked. It is
//! far too slow for a full yard with many rounds, and is what small and middling cases are checked against.

mod circuit;
mod settle;
mod text;

use crate::builder::{Book, Builder, Numbers};
use circuit::{circuit, Circuit};
use settle::{settle, Settled};
use std::cell::RefCell;
use std::collections::BTreeSet;

/// A plan, or the round of the contradiction.
type Plan = Result<(Settled, Circuit), usize>;

/// A plan with the n, table and pins that it was made from.
type Kept = (u32, Vec<i32>, Vec<i32>, Plan);

/// The rules as words. It keeps the last plan, for a case asks for the same one many times.
#[derive(Default)]
pub struct Words {
    last: RefCell<Option<Kept>>,
}

fn refused(number: u32, place: usize) -> Option<Numbers> {
    Some(Numbers { number, place, first: 0, second: 0 })
}

fn when(fault: bool, number: u32, place: usize) -> Option<Numbers> {
    fault.then_some(Numbers { number, place, first: 0, second: 0 })
}

fn accepted(first: usize, second: usize) -> Numbers {
    Numbers { number: 0, place: 0, first, second }
}

fn table_fault(n: u32, table: &[i32]) -> Option<Numbers> {
    if n > 1_024 {
        return refused(2, 0);
    }
    if table.len() > 16_384 {
        return refused(2, 16_384);
    }
    text::earliest(text::table_faults(n, table))
}

fn out_of_range(n: u32, pin: i32) -> bool {
    !(1..=i64::from(n)).contains(&i64::from(pin).abs())
}

fn work_fault(work: &[i32]) -> Option<Numbers> {
    when(work.len() < 16_384, 9, 16_384)
}

/// 2 and 3, 9, 6 for the length, 5 for the held pins.
fn lent_fault(n: u32, table: &[i32], work: &[i32], book: &Book) -> Option<Numbers> {
    table_fault(n, table)
        .or_else(|| work_fault(work))
        .or_else(|| when(book.length > 64, 6, 64))
        .or_else(|| when(book.pins[..book.length].iter().any(|pin| out_of_range(n, *pin)), 5, 0))
}

impl Words {
    fn with_plan<T>(&self, n: u32, table: &[i32], pins: &[i32], then: impl FnOnce(&Plan) -> T) -> T {
        let mut last = self.last.borrow_mut();
        let kept = last.as_ref().is_some_and(|(a, b, c, _)| *a == n && b == table && c == pins);
        if !kept {
            let plan = settle(n, table, pins).map(|settled| {
                let circuit = circuit(&settled);
                (settled, circuit)
            });
            *last = Some((n, table.to_vec(), pins.to_vec(), plan));
        }
        let (.., plan) = last.as_ref().expect("just put there");
        then(plan)
    }

    /// 4, for a sound call.
    fn contradiction(&self, n: u32, table: &[i32], pins: &[i32]) -> Option<Numbers> {
        self.with_plan(n, table, pins, |plan| plan.as_ref().err().and_then(|&round| refused(4, round)))
    }

    /// 8 and 10 of a fill or an ask, else the filled-in values.
    fn filled(&self, n: u32, table: &[i32], book: &Book, values: &[u8], room: usize) -> Result<Vec<u8>, Numbers> {
        self.with_plan(n, table, &book.pins[..book.length], |plan| {
            let (settled, circuit) = plan.as_ref().expect("no contradiction");
            let short = values.len() < n as usize || room < n as usize;
            let lowest = || circuit.free.iter().find(|v| ![0, 1].contains(&values[**v as usize - 1]));
            let fault = when(short, 8, n as usize).or_else(|| lowest().and_then(|&v| refused(10, v as usize)));
            match fault {
                Some(numbers) => Err(numbers),
                None => Ok(circuit.fill(settled, values)),
            }
        })
    }
}

impl Words {
    /// The settled table's clauses as sets, None for a contradiction.
    pub fn settled(&self, n: u32, table: &[i32], pins: &[i32]) -> Option<Vec<BTreeSet<i32>>> {
        self.with_plan(n, table, pins, |plan| {
            let (settled, _) = plan.as_ref().ok()?;
            Some(settled.table.iter().map(|clause| clause.iter().copied().collect()).collect())
        })
    }
}

impl Builder for Words {
    fn name(&self) -> &str {
        "words"
    }

    fn check(&self, n: u32, table: &[i32]) -> Numbers {
        table_fault(n, table).unwrap_or(accepted(0, 0))
    }

    fn read(&self, text: &[u8], row: &mut [i32]) -> Numbers {
        let (n, entries) = match text::read(text) {
            Ok(read) => read,
            Err(numbers) => return numbers,
        };
        if entries.len() > row.len() {
            return Numbers { number: 8, place: entries.len(), first: 0, second: 0 };
        }
        for (place, entry) in entries.iter().enumerate() {
            row[place] = *entry;
        }
        accepted(n as usize, entries.len())
    }

    fn write(&self, n: u32, table: &[i32], bytes: &mut [u8]) -> Numbers {
        if let Some(numbers) = table_fault(n, table) {
            return numbers;
        }
        let text = crate::case::text_of(n, table);
        if let Some(numbers) = when(bytes.len() < text.len(), 8, text.len()) {
            return numbers;
        }
        bytes[..text.len()].copy_from_slice(text.as_bytes());
        accepted(text.len(), 0)
    }

    fn clause<'a>(&self, n: u32, table: &'a [i32], k: usize) -> &'a [i32] {
        let zeros: Vec<usize> = (0..table.len()).filter(|&place| table[place] == 0).collect();
        if table_fault(n, table).is_some() || k >= zeros.len() {
            return &table[table.len()..];
        }
        let start = if k == 0 { 0 } else { zeros[k - 1] + 1 };
        &table[start..=zeros[k]]
    }

    fn build(&self, n: u32, table: &[i32], work: &mut [i32], book: &Book, bytes: &mut [u8]) -> Numbers {
        work.fill(0);
        let fault =
            lent_fault(n, table, work, book).or_else(|| self.contradiction(n, table, &book.pins[..book.length]));
        if let Some(numbers) = fault {
            return numbers;
        }
        self.with_plan(n, table, &book.pins[..book.length], |plan| {
            let (settled, circuit) = plan.as_ref().expect("no contradiction");
            let listing = circuit.listing(settled);
            if let Some(numbers) = when(bytes.len() < listing.len(), 8, listing.len()) {
                return numbers;
            }
            bytes[..listing.len()].copy_from_slice(listing.as_bytes());
            accepted(settled.rounds, listing.len())
        })
    }

    fn fill(&self, n: u32, table: &[i32], work: &mut [i32], book: &Book, values: &[u8], result: &mut [u8]) -> Numbers {
        work.fill(0);
        let fault =
            lent_fault(n, table, work, book).or_else(|| self.contradiction(n, table, &book.pins[..book.length]));
        if let Some(numbers) = fault {
            return numbers;
        }
        match self.filled(n, table, book, values, result.len()) {
            Err(numbers) => numbers,
            Ok(filled) => {
                result[..filled.len()].copy_from_slice(&filled);
                accepted(0, 0)
            }
        }
    }

    fn ask(&self, n: u32, table: &[i32], work: &mut [i32], book: &Book, values: &[u8], variable: u32) -> Numbers {
        work.fill(0);
        let fault = table_fault(n, table)
            .or_else(|| when(variable < 1 || variable > n, 5, 0))
            .or_else(|| lent_fault(n, table, work, book))
            .or_else(|| self.contradiction(n, table, &book.pins[..book.length]));
        if let Some(numbers) = fault {
            return numbers;
        }
        match self.filled(n, table, book, values, n as usize) {
            Err(numbers) => numbers,
            Ok(filled) => accepted(filled[variable as usize - 1] as usize, 0),
        }
    }

    fn pin(&self, n: u32, table: &[i32], work: &mut [i32], book: &mut Book, new: i32) -> Numbers {
        work.fill(0);
        let fault = lent_fault(n, table, work, book)
            .or_else(|| when(out_of_range(n, new), 5, 0))
            .or_else(|| when(book.length == 64, 6, 64))
            .or_else(|| {
                let mut pins = book.pins[..book.length].to_vec();
                pins.push(new);
                self.contradiction(n, table, &pins)
            });
        if let Some(numbers) = fault {
            return numbers;
        }
        book.pins[book.length] = new;
        book.length += 1;
        accepted(0, 0)
    }

    fn take_back(&self, book: &mut Book) -> Numbers {
        let fault = when(book.length == 0, 7, 0).or_else(|| when(book.length > 64, 6, 64));
        if let Some(numbers) = fault {
            return numbers;
        }
        book.pins[book.length - 1] = 0;
        book.length -= 1;
        accepted(0, 0)
    }

    fn program(&self, text: &[u8]) -> Vec<u8> {
        let x = |numbers: Numbers| format!("X\t{}\t{}\n", numbers.number, numbers.place).into_bytes();
        let (n, entries) = match text::read(text) {
            Ok(read) => read,
            Err(numbers) => return x(numbers),
        };
        self.with_plan(n, &entries, &[], |plan| match plan {
            Err(round) => x(Numbers { number: 4, place: *round, first: 0, second: 0 }),
            Ok((settled, circuit)) => {
                let listing = circuit.listing(settled);
                if listing.len() > 65_536 {
                    return x(Numbers { number: 8, place: listing.len(), first: 0, second: 0 });
                }
                listing.into_bytes()
            }
        })
    }
}
