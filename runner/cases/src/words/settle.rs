//! The rounds as words: clauses are sets, and each step goes over all clauses until nothing new comes.

use std::collections::{BTreeMap, BTreeSet};

type Set = BTreeSet<i32>;

/// What became of a variable.
#[derive(Clone, Copy, Debug, PartialEq, Eq)]
pub enum Meaning {
    Fixed(bool),
    /// The literal of a root that stands for it; a root stands for itself.
    Stands(i32),
}

pub struct Settled {
    pub n: u32,
    pub rounds: usize,
    pub meaning: BTreeMap<i32, Meaning>,
    /// Each clause by rising variable.
    pub table: Vec<Vec<i32>>,
}

fn void(clause: &Set) -> bool {
    clause.iter().any(|literal| clause.contains(&-literal))
}

/// The rounds over the table with the pins behind it, or the round of the contradiction.
pub fn settle(n: u32, table: &[i32], pins: &[i32]) -> Result<Settled, usize> {
    let mut clauses: Vec<Set> = Vec::new();
    let mut open = Set::new();
    for &entry in table {
        match entry {
            0 => clauses.push(std::mem::take(&mut open)),
            literal => drop(open.insert(literal)),
        }
    }
    clauses.extend(pins.iter().map(|&pin| Set::from([pin])));
    let mut meaning: BTreeMap<i32, Meaning> = (1..=n as i32).map(|v| (v, Meaning::Stands(v))).collect();
    for round in 1.. {
        let forced = least_forced(&clauses).ok_or(round)?;
        clauses = cleaned(&clauses, &forced);
        let pairs = pairs(&clauses);
        let lowest = lowest(&clauses, &pairs).ok_or(round)?;
        for meaning in meaning.values_mut() {
            if let Meaning::Stands(literal) = *meaning {
                *meaning = match (forced.contains(&literal), forced.contains(&-literal)) {
                    (true, _) => Meaning::Fixed(true),
                    (_, true) => Meaning::Fixed(false),
                    _ => Meaning::Stands(instead(&lowest, literal)),
                };
            }
        }
        if pairs.is_empty() {
            let by_variable = |clause: &Set| {
                let mut row: Vec<i32> = clause.iter().copied().collect();
                row.sort_by_key(|literal| literal.abs());
                row
            };
            return Ok(Settled { n, rounds: round, meaning, table: clauses.iter().map(by_variable).collect() });
        }
        clauses = clauses.iter().map(|set| set.iter().map(|l| instead(&lowest, *l)).collect()).collect();
    }
    unreachable!("the rounds end")
}

/// The least set of forced literals, None for a contradiction.
fn least_forced(clauses: &[Set]) -> Option<Set> {
    let mut forced = Set::new();
    loop {
        let before = forced.len();
        for clause in clauses.iter().filter(|clause| !void(clause)) {
            // A literal is forced when all the others are denied: by the one that isn't, or by none.
            let not_denied: Vec<i32> = clause.iter().copied().filter(|l| !forced.contains(&-l)).collect();
            match not_denied[..] {
                [] => forced.extend(clause.iter()),
                [only] => drop(forced.insert(only)),
                _ => {}
            }
        }
        if forced.len() == before {
            break;
        }
    }
    let clash = forced.iter().any(|literal| forced.contains(&-literal));
    (!clash && !clauses.contains(&Set::new())).then_some(forced)
}

fn cleaned(clauses: &[Set], forced: &Set) -> Vec<Set> {
    let mut kept: Vec<Set> = Vec::new();
    for clause in clauses {
        if void(clause) || clause.iter().any(|literal| forced.contains(literal)) {
            continue;
        }
        let left: Set = clause.iter().copied().filter(|literal| !forced.contains(&-literal)).collect();
        if !kept.contains(&left) {
            kept.push(left);
        }
    }
    kept
}

/// The pairs of a cleaned table: two clauses (x y)(-x -y) say that x equals -y.
fn pairs(clauses: &[Set]) -> Vec<(i32, i32)> {
    let mut pairs = Vec::new();
    for first in clauses.iter().filter(|clause| clause.len() == 2) {
        let opposite: Set = first.iter().map(|literal| -literal).collect();
        if clauses.contains(&opposite) {
            let mut two = first.iter();
            let (x, y) = (two.next().expect("two literals"), two.next().expect("two literals"));
            pairs.push((*x, -y));
        }
    }
    pairs
}

/// For each literal of the clauses the literal of its class with the lowest variable; None for a contradiction.
fn lowest(clauses: &[Set], pairs: &[(i32, i32)]) -> Option<BTreeMap<i32, i32>> {
    let mut class: BTreeMap<i32, Set> = BTreeMap::new();
    for literal in clauses.iter().flatten().flat_map(|&literal| [literal, -literal]) {
        class.insert(literal, Set::from([literal]));
    }
    for &(a, b) in pairs {
        for (a, b) in [(a, b), (-a, -b)] {
            let both: Set = class[&a].union(&class[&b]).copied().collect();
            for literal in &both {
                class.insert(*literal, both.clone());
            }
        }
    }
    if class.iter().any(|(literal, all)| all.contains(&-literal)) {
        return None;
    }
    let of = |all: &Set| *all.iter().min_by_key(|literal| literal.abs()).expect("each holds itself");
    Some(class.iter().map(|(literal, all)| (*literal, of(all))).collect())
}

fn instead(lowest: &BTreeMap<i32, i32>, literal: i32) -> i32 {
    *lowest.get(&literal).unwrap_or(&literal)
}
