//! The rounds: forced literals, cleaning, pairs and substitution, until no pair is found.
//!
//! "A clause is taken as its set of literals. One holding v and -v is void."
//!
//! The rounds are run over one set of clauses that is changed in place. A list for each literal says which clauses hold
//! it, and an index by their literals finds equal and opposite clauses at once. A round looks only at the clauses that
//! changed since the last one: the others hold two literals or more, are not void, hold nothing forced, differ from
//! each other, and no two of them are a pair, or the last round would have changed them. While the rounds run, a clause
//! writes each class of equal literals by its seat (see `classes`), which turns no equal clauses into unequal ones; the
//! names that the rules ask for, and the order by variable, come at the end.

use crate::classes::Classes;
use crate::table::clauses;
use std::collections::HashMap;

/// What became of a variable: "In the end each variable is fixed, or linked to a literal of a variable neither fixed
/// nor linked, or neither; the last are roots. A variable linked to a fixed one is fixed."
#[derive(Clone, Copy, Debug, PartialEq, Eq)]
pub enum Part {
    Fixed(bool),
    Linked(i32),
    Root,
}

/// What the rounds end in.
pub struct Settled {
    /// "the rounds run, as the definition counts them".
    pub rounds: usize,
    /// The part of variable v at place v; place 0 stands for no variable.
    pub parts: Vec<Part>,
    /// "The cleaned clauses of the last round are the settled table, over roots."
    pub clauses: Vec<Vec<i32>>,
}

/// Runs the rounds over a sound table with the pins behind it: "A pin is a one-literal clause put behind the table."
/// A contradiction gives its round.
pub fn settle(n: u32, table: &[i32], pins: &[i32]) -> Result<Settled, usize> {
    let units = pins.chunks(1);
    let mut yard = Yard::new(n, clauses(table).chain(units));
    let mut changed: Vec<usize> = (0..yard.sets.len()).collect();
    let mut round = 1;
    loop {
        let forced = yard.forced(&changed).ok_or(round)?;
        yard.clean(&forced, &mut changed);
        let equal = yard.pairs(&changed);
        // "If no pair was found, the rounds end; else the next round starts on the substituted clauses."
        if equal.is_empty() {
            return Ok(yard.settled(round));
        }
        changed = yard.substitute(&equal).ok_or(round)?;
        round += 1;
    }
}

/// The place of a literal in the lists that have one for each.
fn at(literal: i32) -> usize {
    2 * literal.unsigned_abs() as usize + usize::from(literal < 0)
}

/// "order literals by variable", repeats of a literal dropped.
fn order(set: &mut Vec<i32>) {
    set.sort_unstable_by_key(|&literal| at(literal));
    set.dedup();
}

/// Whether an ordered set holds v and -v.
fn is_void(set: &[i32]) -> bool {
    set.windows(2).any(|two| two[0] == -two[1])
}

/// The clauses while the rounds run.
struct Yard {
    n: u32,
    /// Each clause's set, ordered by seat.
    sets: Vec<Vec<i32>>,
    /// Whether the clause is still there.
    live: Vec<bool>,
    /// How many of a clause's literals have an opposite that is forced in this round and was worked through.
    denied: Vec<usize>,
    /// For each literal the clauses that hold it, each once; dropped clauses may still stand in it.
    holders: Vec<Vec<usize>>,
    /// Whether the literal is forced, in this round or an earlier one.
    is_forced: Vec<bool>,
    /// The live clauses by their sets, but for those changed since the last cleaning.
    index: HashMap<Vec<i32>, usize>,
    classes: Classes,
}

impl Yard {
    fn new<'a>(n: u32, clauses: impl Iterator<Item = &'a [i32]>) -> Yard {
        let sets: Vec<Vec<i32>> = clauses
            .map(|clause| {
                let mut set = clause.to_vec();
                order(&mut set);
                set
            })
            .collect();
        let mut yard = Yard {
            n,
            live: sets.iter().map(|set| !is_void(set)).collect(),
            denied: vec![0; sets.len()],
            holders: vec![Vec::new(); 2 * n as usize + 2],
            is_forced: vec![false; 2 * n as usize + 2],
            index: HashMap::with_capacity(sets.len()),
            classes: Classes::new(n),
            sets,
        };
        for (c, set) in yard.sets.iter().enumerate().filter(|(c, _)| yard.live[*c]) {
            for &literal in set {
                yard.holders[at(literal)].push(c);
                yard.classes.weigh(literal.abs());
            }
        }
        yard
    }

    /// "1. Forced literals: the least set such that a literal of a non-void clause is in it when the opposites of all
    /// the clause's other literals are. Contradiction: the set holds a literal and its opposite, or the table holds an
    /// empty clause." Counts for each clause the literals that are denied. Void clauses were dropped before.
    fn forced(&mut self, changed: &[usize]) -> Option<Vec<i32>> {
        let mut forced = Vec::new();
        for &c in changed.iter().filter(|c| self.live[**c]) {
            match self.sets[c][..] {
                [] => return None,
                [only] => force(&mut self.is_forced, &mut forced, only)?,
                _ => {}
            }
        }
        let mut next = 0;
        while next < forced.len() {
            let opposite: i32 = -forced[next];
            next += 1;
            for &c in self.holders[at(opposite)].iter().filter(|c| self.live[**c]) {
                self.denied[c] += 1;
                if self.denied[c] + 1 >= self.sets[c].len() {
                    // Where every literal is denied, each of them is forced and denied at once.
                    let open = self.sets[c].iter().find(|literal| !self.is_forced[at(-**literal)])?;
                    force(&mut self.is_forced, &mut forced, *open)?;
                }
            }
        }
        Some(forced)
    }

    /// "2. Clean: drop void clauses and those holding a forced literal; drop the opposites of forced literals; order
    /// literals by variable; keep the first of equal clauses. Clause order stays." Leaves in `changed` the clauses that
    /// changed since the last cleaning and are kept.
    fn clean(&mut self, forced: &[i32], changed: &mut Vec<usize>) {
        for &literal in forced {
            for c in std::mem::take(&mut self.holders[at(literal)]) {
                self.drop_clause(c);
            }
        }
        for &literal in forced {
            for c in std::mem::take(&mut self.holders[at(-literal)]) {
                if self.live[c] {
                    self.withdraw(c);
                    self.sets[c].retain(|&other| other != -literal);
                    self.denied[c] = 0;
                    changed.push(c);
                }
            }
        }
        changed.sort_unstable();
        changed.dedup();
        changed.retain(|&c| self.live[c]);
        for &c in changed.iter() {
            match self.index.get(&self.sets[c]) {
                Some(&first) if first < c => self.live[c] = false,
                Some(&later) => {
                    self.live[later] = false;
                    self.index.insert(self.sets[c].clone(), c);
                }
                None => {
                    self.index.insert(self.sets[c].clone(), c);
                }
            }
        }
        changed.retain(|&c| self.live[c]);
    }

    /// "3. Pairs: (-a b) with (a -b) says a equals b; (a b) with (-a -b) says a equals -b". Both say that two clauses
    /// of two literals, each the opposite of one in the other, are a pair: x of (x y) equals -y. Of a new pair at least
    /// one clause has changed.
    fn pairs(&self, changed: &[usize]) -> Vec<(i32, i32)> {
        let mut equal = Vec::new();
        for &c in changed {
            if let [x, y] = self.sets[c][..] {
                if self.index.contains_key([-x, -y].as_slice()) {
                    equal.push((x, -y));
                }
            }
        }
        equal
    }

    /// "Close this under chaining. Contradiction: a literal equals its opposite. Otherwise each variable gives way to
    /// the literal of the lowest variable of its class." Here it gives way to its seat. Returns the changed clauses.
    fn substitute(&mut self, equal: &[(i32, i32)]) -> Option<Vec<usize>> {
        let mut gone = Vec::new();
        for &(a, b) in equal {
            match self.classes.join(a, b)? {
                0 => {}
                seat => gone.push(seat),
            }
        }
        let mut changed = Vec::new();
        for old in gone.iter().flat_map(|&seat| [seat, -seat]) {
            let new = self.classes.seat(old);
            for c in std::mem::take(&mut self.holders[at(old)]) {
                if !self.live[c] {
                    continue;
                }
                self.withdraw(c);
                self.sets[c].retain(|&literal| literal != old);
                if !self.sets[c].contains(&new) {
                    self.sets[c].push(new);
                    self.holders[at(new)].push(c);
                }
                changed.push(c);
            }
        }
        changed.sort_unstable();
        changed.dedup();
        for &c in &changed {
            order(&mut self.sets[c]);
            // A void clause forces nothing and goes in the next cleaning; it can go now.
            self.live[c] = !is_void(&self.sets[c]);
        }
        Some(changed)
    }

    /// Takes a clause out of the index before its set changes.
    fn withdraw(&mut self, c: usize) {
        if self.index.get(&self.sets[c]) == Some(&c) {
            self.index.remove(&self.sets[c]);
        }
    }

    fn drop_clause(&mut self, c: usize) {
        if self.live[c] {
            self.withdraw(c);
            self.live[c] = false;
        }
    }

    /// The result under the names that the rules give: the lowest variable of each class.
    fn settled(self, rounds: usize) -> Settled {
        let part = |variable: i32| {
            let seat = self.classes.seat(variable);
            if self.is_forced[at(seat)] || self.is_forced[at(-seat)] {
                return Part::Fixed(self.is_forced[at(seat)]);
            }
            match self.classes.name(variable) {
                name if name == variable => Part::Root,
                name => Part::Linked(name),
            }
        };
        let named = |set: &Vec<i32>| {
            let mut named: Vec<i32> = set.iter().map(|&literal| self.classes.name(literal)).collect();
            order(&mut named);
            named
        };
        Settled {
            rounds,
            parts: (0..=self.n as i32).map(part).collect(),
            clauses: (0..self.sets.len()).filter(|&c| self.live[c]).map(|c| named(&self.sets[c])).collect(),
        }
    }
}

/// Puts a literal into the set of forced ones; None where its opposite is in it.
fn force(is_forced: &mut [bool], forced: &mut Vec<i32>, literal: i32) -> Option<()> {
    if is_forced[at(-literal)] {
        return None;
    }
    if !is_forced[at(literal)] {
        is_forced[at(literal)] = true;
        forced.push(literal);
    }
    Some(())
}

#[cfg(test)]
mod tests {
    use super::*;

    fn rounds(n: u32, table: &[i32]) -> Result<usize, usize> {
        settle(n, table, &[]).map(|settled| settled.rounds)
    }

    #[test]
    fn an_empty_table_runs_one_round() {
        assert_eq!(rounds(0, &[]), Ok(1));
        assert_eq!(rounds(1, &[1, -1, 0]), Ok(1));
        assert_eq!(rounds(1, &[0]), Err(1));
    }

    #[test]
    fn the_first_of_equal_clauses_stays_where_it_stands() {
        let settled = settle(4, &[3, 2, 0, 1, 4, 0, 2, 3, 0, 2, 3, 2, 0], &[]).ok().unwrap();
        assert_eq!(settled.clauses, [[2, 3], [1, 4]]);
    }

    #[test]
    fn an_earlier_clause_that_becomes_equal_to_a_later_one_stays() {
        // 3 equals 1, so (3 2 4) becomes (1 2 4), which stands behind it.
        let settled = settle(4, &[3, 2, 4, 0, 2, -4, 0, 1, 2, 4, 0, 1, -3, 0, -1, 3, 0], &[]).ok().unwrap();
        assert_eq!(settled.rounds, 2);
        assert_eq!(settled.clauses, [vec![1, 2, 4], vec![2, -4]]);
        assert_eq!(settled.parts[3], Part::Linked(1));
    }

    #[test]
    fn a_link_to_a_variable_fixed_later_is_no_link() {
        let settled = settle(2, &[-1, 2, 0, 1, -2, 0, 1, 2, 0], &[]).ok().unwrap();
        assert_eq!(settled.rounds, 2);
        assert_eq!(settled.parts[1..], [Part::Fixed(true), Part::Fixed(true)]);
    }

    #[test]
    fn the_round_of_a_contradiction_counts_the_new_pin() {
        let table = [-1, 2, 0, 1, -2, 0, 1, 2, 0, -1, -2, 3, 0, -2, -3, 4, 0];
        assert_eq!(settle(4, &table, &[-4]).err(), Some(2));
        assert_eq!(settle(4, &table, &[-4, -1]).err(), Some(1));
    }
}
