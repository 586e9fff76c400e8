//! The gates: parity groups and and-forms of the settled table, taken in order and kept free of rings, with their
//! levels, the residue and the free variables.
//!
//! Settled clauses are found by their literals and parity groups by their variables, both through hash maps; whether an
//! input depends on an output is asked by a depth-first search through the gates taken so far.

use crate::kinds::Kind;
use crate::rounds::{Part, Settled};
use std::collections::HashMap;

/// A taken gate. Its inputs stand by rising variable; those of kinds without signs are positive.
#[derive(Clone, Debug, PartialEq, Eq)]
pub struct Gate {
    pub kind: Kind,
    pub output: i32,
    pub inputs: Vec<i32>,
    pub level: usize,
}

/// What the settled table comes to.
pub struct Circuit {
    /// By level, then output.
    pub gates: Vec<Gate>,
    /// "Free variables are the roots that are no output", rising.
    pub free: Vec<i32>,
    /// "The residue is every settled clause in no taken gate's pattern, in order": places in the settled table.
    pub residue: Vec<usize>,
}

/// A gate that may be taken, and the settled clauses of its pattern.
struct Candidate {
    gate: Gate,
    pattern: Vec<usize>,
}

/// "Go through the settled clauses in order, those of width 3 or more. At each, try the parity group it anchors, each
/// variable as output from the lowest up; then the and-form, each literal as o, lowest variable first. Take the first
/// candidate that is allowed and go on."
pub fn circuit(settled: &Settled) -> Circuit {
    let patterns = Patterns::new(&settled.clauses);
    let mut taken = Taken::new(settled.parts.len());
    let mut in_pattern = vec![false; settled.clauses.len()];
    for (anchor, clause) in settled.clauses.iter().enumerate().filter(|(_, clause)| clause.len() >= 3) {
        let of_parity = patterns.parity(anchor);
        let of_and = clause.iter().filter_map(|&output| patterns.and_form(anchor, output));
        if let Some(candidate) = of_parity.into_iter().chain(of_and).find(|candidate| taken.allows(&candidate.gate)) {
            for &place in &candidate.pattern {
                in_pattern[place] = true;
            }
            taken.take(candidate.gate);
        }
    }
    let is_root = |variable: &usize| settled.parts[*variable] == Part::Root;
    let free = (1..settled.parts.len()).filter(is_root).filter(|&v| taken.gate_of[v].is_none());
    Circuit {
        free: free.map(|variable| variable as i32).collect(),
        gates: taken.levelled(),
        residue: (0..in_pattern.len()).filter(|&place| !in_pattern[place]).collect(),
    }
}

/// The settled table with what finds a pattern in it.
struct Patterns<'a> {
    clauses: &'a [Vec<i32>],
    /// The place of each settled clause.
    place: HashMap<&'a [i32], usize>,
    /// The places of the clauses over 3 to 5 variables, for each set of variables and each parity of the number of
    /// negative literals, rising.
    groups: HashMap<(Vec<i32>, bool), Vec<usize>>,
}

/// The variables of a clause, and whether its number of negative literals is odd.
fn group(clause: &[i32]) -> (Vec<i32>, bool) {
    let negative = clause.iter().filter(|&&literal| literal < 0).count();
    (clause.iter().map(|literal| literal.abs()).collect(), negative % 2 == 1)
}

impl<'a> Patterns<'a> {
    fn new(clauses: &'a [Vec<i32>]) -> Patterns<'a> {
        let mut groups: HashMap<(Vec<i32>, bool), Vec<usize>> = HashMap::new();
        for (place, clause) in clauses.iter().enumerate().filter(|(_, clause)| (3..=5).contains(&clause.len())) {
            groups.entry(group(clause)).or_default().push(place);
        }
        let place = clauses.iter().enumerate().map(|(place, clause)| (clause.as_slice(), place)).collect();
        Patterns { clauses, place, groups }
    }

    /// "Over 3 to 5 variables, k of them: all 2^(k-1) clauses of width k that agree in the number of negative literals,
    /// odd or even. Odd: the output is the `xor` of the others; even: `xnor`, its opposite. The anchor is the group's
    /// first clause in the table." Settled clauses differ, so a group is whole when it has as many.
    fn parity(&self, anchor: usize) -> Vec<Candidate> {
        let clause = &self.clauses[anchor];
        if !(3..=5).contains(&clause.len()) {
            return Vec::new();
        }
        let (variables, odd) = group(clause);
        let key = (variables, odd);
        let pattern = &self.groups[&key];
        if pattern[0] != anchor || pattern.len() != 1 << (clause.len() - 1) {
            return Vec::new();
        }
        let kind = if odd { Kind::Xor } else { Kind::Xnor };
        let variables = &key.0;
        let over = |&output: &i32| {
            let inputs = variables.iter().copied().filter(|&variable| variable != output).collect();
            Candidate { gate: Gate { kind, output, inputs, level: 0 }, pattern: pattern.clone() }
        };
        variables.iter().map(over).collect()
    }

    /// "For a literal o and literals a1..am, m at least 2: the anchor (o -a1 .. -am) and every (-o ai)." The inputs of
    /// o = v are the ai, those of o = -v their opposites.
    fn and_form(&self, anchor: usize, o: i32) -> Option<Candidate> {
        let mut pattern = vec![anchor];
        let mut inputs = Vec::new();
        for &other in self.clauses[anchor].iter().filter(|&&literal| literal != o) {
            let mut two = [-o, -other];
            two.sort_unstable_by_key(|literal| literal.abs());
            pattern.push(*self.place.get(two.as_slice())?);
            inputs.push(if o > 0 { -other } else { other });
        }
        let kind = Kind::of_and_form(o > 0, &inputs);
        if !kind.signed() {
            inputs = inputs.iter().map(|input| input.abs()).collect();
        }
        Some(Candidate { gate: Gate { kind, output: o.abs(), inputs, level: 0 }, pattern })
    }
}

/// The gates taken so far.
struct Taken {
    gates: Vec<Gate>,
    /// For each variable the number of the gate whose output it is.
    gate_of: Vec<Option<usize>>,
    /// Whether the variable is an input of a taken gate; nothing depends on the others.
    is_input: Vec<bool>,
    /// For each variable the last search that came by.
    seen: Vec<usize>,
    searches: usize,
}

impl Taken {
    fn new(places: usize) -> Taken {
        Taken {
            gates: Vec::new(),
            gate_of: vec![None; places],
            is_input: vec![false; places],
            seen: vec![0; places],
            searches: 0,
        }
    }

    /// "Allowed: the output is not yet an output, and no input depends on it through gates already taken."
    fn allows(&mut self, gate: &Gate) -> bool {
        let output = gate.output as usize;
        if self.gate_of[output].is_some() {
            return false;
        }
        if !self.is_input[output] {
            return true;
        }
        self.searches += 1;
        let mut open: Vec<usize> = variables(gate).collect();
        while let Some(variable) = open.pop() {
            if variable == output {
                return false;
            }
            if std::mem::replace(&mut self.seen[variable], self.searches) != self.searches {
                open.extend(self.gate_of[variable].iter().flat_map(|&g| variables(&self.gates[g])));
            }
        }
        true
    }

    fn take(&mut self, gate: Gate) {
        self.gate_of[gate.output as usize] = Some(self.gates.len());
        for input in variables(&gate) {
            self.is_input[input] = true;
        }
        self.gates.push(gate);
    }

    /// "A gate's level is one more than its inputs' highest", that of a free variable 0. The gates come back by level,
    /// then output.
    fn levelled(mut self) -> Vec<Gate> {
        let mut levels = vec![None; self.gates.len()];
        for g in 0..self.gates.len() {
            self.level(g, &mut levels);
        }
        for (gate, level) in self.gates.iter_mut().zip(&levels) {
            gate.level = level.unwrap_or(0);
        }
        self.gates.sort_by_key(|gate| (gate.level, gate.output));
        self.gates
    }

    /// The level of gate g, each worked out once.
    fn level(&self, g: usize, levels: &mut Vec<Option<usize>>) -> usize {
        if let Some(level) = levels[g] {
            return level;
        }
        let mut highest = 0;
        for input in variables(&self.gates[g]) {
            if let Some(below) = self.gate_of[input] {
                highest = highest.max(self.level(below, levels));
            }
        }
        levels[g] = Some(highest + 1);
        highest + 1
    }
}

/// The variables of a gate's inputs.
fn variables(gate: &Gate) -> impl Iterator<Item = usize> + '_ {
    gate.inputs.iter().map(|input| input.unsigned_abs() as usize)
}

#[cfg(test)]
mod tests {
    use super::*;
    use crate::rounds::settle;

    fn gates(n: u32, table: &[i32]) -> Vec<(usize, Kind, i32, Vec<i32>)> {
        let circuit = circuit(&settle(n, table, &[]).ok().unwrap());
        circuit.gates.into_iter().map(|gate| (gate.level, gate.kind, gate.output, gate.inputs)).collect()
    }

    #[test]
    fn the_level_belongs_to_the_finished_circuit() {
        let table = [1, -2, -3, 0, -1, 2, 0, -1, 3, 0, 2, -4, -5, 0, -2, 4, 0, -2, 5, 0];
        let expected = [(1, Kind::And, 2, vec![4, 5]), (2, Kind::And, 1, vec![2, 3])];
        assert_eq!(gates(5, &table), expected);
    }

    #[test]
    fn kinds_of_the_and_form_by_signs() {
        // (o -a -b)(-o a)(-o b) for each choice of signs; 1 is the output, o is 1 or -1.
        let of = |o: i32, a: i32, b: i32| gates(3, &[o, -a, -b, 0, -o, a, 0, -o, b, 0])[0].clone();
        assert_eq!(of(1, 2, 3), (1, Kind::And, 1, vec![2, 3]));
        assert_eq!(of(1, -2, -3), (1, Kind::Nor, 1, vec![2, 3]));
        assert_eq!(of(1, 2, -3), (1, Kind::Cg, 1, vec![2, -3]));
        assert_eq!(of(-1, -2, -3), (1, Kind::Or, 1, vec![2, 3]));
        assert_eq!(of(-1, 2, 3), (1, Kind::Nand, 1, vec![2, 3]));
        assert_eq!(of(-1, 2, -3), (1, Kind::Dg, 1, vec![-2, 3]));
    }
}
