//! The demands checked on one builder alone: by all assignments for small tables, by chosen ones for large ones.
//!
//! "Where the build is accepted, fill in all variables from any choice for the free ones: the result satisfies the table
//! and pins exactly when it satisfies the residue. Every assignment that satisfies them is the one filled in from its
//! own free values. Where the build says contradiction, no assignment satisfies them."

use crate::builder::{Book, Builder, Numbers};
use crate::random::Random;
use crate::shown::{Set, Shown};

/// A sound table with pins in range, built by a builder.
pub struct Built<'a> {
    builder: &'a dyn Builder,
    n: u32,
    table: &'a [i32],
    book: &'a Book,
    /// The listing, or None for a contradiction.
    pub shown: Option<Shown>,
}

fn ensure(holds: bool, what: impl FnOnce() -> String) -> Result<(), String> {
    if holds {
        return Ok(());
    }
    Err(what())
}

/// Whether the values satisfy the entries' clauses.
pub fn satisfies(table: &[i32], values: &[u8]) -> bool {
    table.split_inclusive(|&entry| entry == 0).all(|clause| holds(&clause[..clause.len() - 1], values))
}

fn holds(clause: &[i32], values: &[u8]) -> bool {
    clause.iter().any(|literal| (values[literal.unsigned_abs() as usize - 1] == 1) == (*literal > 0))
}

impl<'a> Built<'a> {
    /// Builds; a refusal other than 4 is a fault, for the table is sound and the pins in range.
    pub fn new(builder: &'a dyn Builder, n: u32, table: &'a [i32], book: &'a Book) -> Result<Built<'a>, String> {
        let mut work = vec![7; 16_384];
        let mut listing = vec![0; 512];
        let mut build = || builder.build(n, table, &mut work, book, &mut listing);
        let mut numbers = build();
        if numbers.number == 8 {
            listing = vec![0; numbers.place];
            numbers = builder.build(n, table, &mut work, book, &mut listing);
        }
        let shown = match numbers.number {
            0 => Some(Shown::read(&listing[..numbers.second])?),
            4 => None,
            _ => return Err(format!("a sound table is refused: {numbers:?}")),
        };
        if let Some(shown) = &shown {
            ensure(shown.n as u32 == n, || "the listing tells of another n".to_string())?;
            ensure(shown.rounds == numbers.first, || "the listing tells of other rounds".to_string())?;
        }
        Ok(Built { builder, n, table, book, shown })
    }

    fn fill(&self, values: &[u8]) -> Result<Vec<u8>, String> {
        let mut work = vec![7; 16_384];
        let mut result = vec![7; self.n as usize];
        let numbers = self.builder.fill(self.n, self.table, &mut work, self.book, values, &mut result);
        ensure(numbers == Numbers::accepted(0, 0), || format!("a fill is refused: {numbers:?}"))?;
        Ok(result)
    }

    fn ask(&self, values: &[u8], variable: u32) -> Result<usize, String> {
        let mut work = vec![7; 16_384];
        let numbers = self.builder.ask(self.n, self.table, &mut work, self.book, values, variable);
        ensure(numbers.is_accepted(), || format!("an ask is refused: {numbers:?}"))?;
        Ok(numbers.first)
    }

    /// Whether the values satisfy the table and the pins.
    fn satisfied(&self, values: &[u8]) -> bool {
        let pins = &self.book.pins[..self.book.length];
        satisfies(self.table, values) && pins.iter().all(|pin| holds(&[*pin], values))
    }

    /// Fills in from a choice for the free variables, and checks what must hold of any: the filled-in values follow from
    /// the listing alone, and they satisfy the table and pins exactly when they satisfy the residue.
    fn filled(&self, shown: &Shown, choice: impl Fn(i32) -> bool) -> Result<Vec<u8>, String> {
        // Values of variables that are not free are ignored, whatever they are.
        let mut values = vec![9; self.n as usize];
        for variable in &shown.free {
            values[*variable as usize - 1] = u8::from(choice(*variable));
        }
        let filled = self.fill(&values)?;
        ensure(filled == shown.fill(&choice)?, || format!("filled in against the listing: {values:?}"))?;
        let residue = shown.residue.iter().all(|clause| holds(clause, &filled));
        ensure(self.satisfied(&filled) == residue, || {
            format!("the residue is {residue} where table and pins are {}: {filled:?}", !residue)
        })?;
        Ok(filled)
    }

    /// All of the demand, over every assignment; n is at most 20.
    pub fn all(&self) -> Result<(), String> {
        let bit = |mask: usize, variable: i32| mask >> (variable - 1) & 1 == 1;
        let assignment = |mask: usize| -> Vec<u8> { (1..=self.n as i32).map(|v| u8::from(bit(mask, v))).collect() };
        let satisfying = (0..1_usize << self.n).map(assignment).filter(|values| self.satisfied(values));
        let Some(shown) = &self.shown else {
            return match satisfying.into_iter().next() {
                Some(values) => Err(format!("a contradiction, yet satisfied by {values:?}")),
                None => Ok(()),
            };
        };
        let mut filled = Vec::new();
        for choice in 0..1_usize << shown.free.len() {
            let place = |variable: i32| shown.free.iter().position(|free| *free == variable).unwrap_or(0);
            filled.push(self.filled(shown, |variable| choice >> place(variable) & 1 == 1)?);
        }
        for values in satisfying {
            let own = |(place, variable): (usize, &i32)| usize::from(values[*variable as usize - 1]) << place;
            let choice: usize = shown.free.iter().enumerate().map(own).sum();
            ensure(filled[choice] == values, || format!("satisfied by {values:?}, which is not filled in"))?;
        }
        // An ask answers as a fill does: for each variable over one choice after another.
        for (choice, values) in filled.iter().enumerate().take(4) {
            for variable in 1..=self.n {
                let given: Vec<u8> = values.clone();
                let answer = self.ask(&given, variable)?;
                ensure(answer == usize::from(values[variable as usize - 1]), || {
                    format!("asked for {variable} over choice {choice}, the answer is {answer}")
                })?;
            }
        }
        Ok(())
    }

    /// The demand over chosen fillings, for tables of any size.
    pub fn some(&self, random: &mut Random, times: usize) -> Result<(), String> {
        let Some(shown) = &self.shown else {
            return Ok(());
        };
        for _ in 0..times {
            let bits: Vec<bool> = (0..=self.n).map(|_| random.chance(50)).collect();
            let filled = self.filled(shown, |variable| bits[variable as usize])?;
            if self.n > 0 {
                let variable = random.within(1, self.n as usize);
                let answer = self.ask(&filled, variable as u32)?;
                ensure(answer == usize::from(filled[variable - 1]), || format!("asked for {variable}: {answer}"))?;
            }
        }
        Ok(())
    }

    /// An assignment known to satisfy the table and pins: it is the one filled in from its own free values.
    pub fn known(&self, values: &[u8]) -> Result<(), String> {
        ensure(self.satisfied(values), || "the known assignment is none".to_string())?;
        let shown = self.shown.as_ref().ok_or("a contradiction, yet satisfied")?;
        let filled = self.filled(shown, |variable| values[variable as usize - 1] == 1)?;
        ensure(filled == values, || "a satisfying assignment is not the one filled in".to_string())
    }

    /// "each gate written out again as clauses, with the residue, gives back the settled table's set of clauses, none
    /// lost and none added."
    pub fn written_out(&self, settled: &[Set]) -> Result<(), String> {
        let Some(shown) = &self.shown else {
            return Ok(());
        };
        let back: std::collections::BTreeSet<Set> = shown.clauses()?.into_iter().collect();
        let settled: std::collections::BTreeSet<Set> = settled.iter().cloned().collect();
        let lost = settled.difference(&back).next();
        ensure(lost.is_none(), || format!("the gates and residue lose the clause {lost:?}"))?;
        let added = back.difference(&settled).next();
        ensure(added.is_none(), || format!("the gates and residue add the clause {added:?}"))
    }
}

/// Written text read back gives n and the table, and the build program prints from it what the build writes.
pub fn round_trip(builder: &dyn Builder, n: u32, table: &[i32]) -> Result<(), String> {
    let mut text = vec![0; 64 + 12 * table.len()];
    let written = builder.write(n, table, &mut text);
    ensure(written.is_accepted(), || format!("a sound table is not written: {written:?}"))?;
    text.truncate(written.first);
    if text.len() > 65_536 {
        return Ok(());
    }
    let mut row = vec![0; table.len()];
    let read = builder.read(&text, &mut row);
    let same = read == Numbers::accepted(n as usize, table.len()) && row == table;
    ensure(same, || format!("written text is read back as another table: {read:?}"))?;
    let mut work = vec![7; 16_384];
    let mut listing = vec![0; 65_536];
    let built = builder.build(n, table, &mut work, &Book::EMPTY, &mut listing);
    let printed = match built.number {
        0 => listing[..built.second].to_vec(),
        number => format!("X\t{number}\t{}\n", built.place).into_bytes(),
    };
    ensure(builder.program(&text) == printed, || "the program prints another listing than the build".to_string())
}
