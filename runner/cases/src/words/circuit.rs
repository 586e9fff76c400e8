//! The gates as words: patterns are looked for clause by clause, dependence and levels are fixpoints.

use super::settle::{Meaning, Settled};
use std::collections::{BTreeMap, BTreeSet};

/// A candidate or a taken gate. `parity` is Some(odd) for a parity group. For an and-form, `o` and the `a` are the
/// literals of the rule.
#[derive(Clone)]
struct Gate {
    output: i32,
    parity: Option<bool>,
    o: i32,
    a: Vec<i32>,
    /// The settled clauses of its pattern.
    pattern: Vec<usize>,
}

pub struct Circuit {
    gates: Vec<Gate>,
    level: BTreeMap<i32, usize>,
    pub free: Vec<i32>,
    residue: Vec<usize>,
}

pub fn circuit(settled: &Settled) -> Circuit {
    let table = &settled.table;
    let mut gates: Vec<Gate> = Vec::new();
    for place in 0..table.len() {
        if table[place].len() < 3 {
            continue;
        }
        let candidates = parity(table, place).into_iter().chain(and_forms(table, place));
        let allowed = |gate: &Gate| {
            let is_output = gates.iter().any(|other| other.output == gate.output);
            !is_output && gate.a.iter().all(|input| !depends(&gates, input.abs(), gate.output))
        };
        if let Some(gate) = candidates.into_iter().find(allowed) {
            gates.push(gate);
        }
    }
    let roots = settled.meaning.iter().filter(|(v, meaning)| **meaning == Meaning::Stands(**v)).map(|(v, _)| *v);
    let free = roots.filter(|v| gates.iter().all(|gate| gate.output != *v)).collect();
    let in_pattern: BTreeSet<usize> = gates.iter().flat_map(|gate| gate.pattern.clone()).collect();
    let residue = (0..table.len()).filter(|place| !in_pattern.contains(place)).collect();
    let level = levels(&gates);
    Circuit { gates, level, free, residue }
}

/// Whether the literals, as a set, are a settled clause: its place.
fn place_of(table: &[Vec<i32>], literals: &[i32]) -> Option<usize> {
    table.iter().position(|row| row.len() == literals.len() && literals.iter().all(|l| row.contains(l)))
}

/// The parity group that the clause anchors, once for each variable as output.
fn parity(table: &[Vec<i32>], place: usize) -> Vec<Gate> {
    let clause = &table[place];
    if clause.len() < 3 || clause.len() > 5 {
        return Vec::new();
    }
    let negatives = |row: &[i32]| row.iter().filter(|literal| **literal < 0).count();
    // Every choice of signs that agrees with the clause's own in the number of negative literals.
    let mut pattern = Vec::new();
    for signs in 0..1_u32 << clause.len() {
        let row: Vec<i32> = (0..clause.len())
            .map(|at| if signs >> at & 1 == 1 { -clause[at].abs() } else { clause[at].abs() })
            .collect();
        if negatives(&row) % 2 == negatives(clause) % 2 {
            match place_of(table, &row) {
                Some(place) => pattern.push(place),
                None => return Vec::new(),
            }
        }
    }
    if pattern.iter().min() != Some(&place) {
        return Vec::new();
    }
    let odd = negatives(clause) % 2 == 1;
    let gate = |output: &i32| {
        let output = output.abs();
        let a = clause.iter().map(|literal| literal.abs()).filter(|variable| *variable != output).collect();
        Gate { output, parity: Some(odd), o: output, a, pattern: pattern.clone() }
    };
    clause.iter().map(gate).collect()
}

/// The and-forms that the clause anchors: each of its literals as o whose two-literal clauses are all there.
fn and_forms(table: &[Vec<i32>], place: usize) -> Vec<Gate> {
    let mut found = Vec::new();
    for &o in &table[place] {
        let a: Vec<i32> = table[place].iter().filter(|literal| **literal != o).map(|literal| -literal).collect();
        let twos: Option<Vec<usize>> = a.iter().map(|input| place_of(table, &[-o, *input])).collect();
        if let Some(mut pattern) = twos {
            pattern.push(place);
            found.push(Gate { output: o.abs(), parity: None, o, a, pattern });
        }
    }
    found
}

/// Whether x is y or depends on it through the gates.
fn depends(gates: &[Gate], x: i32, y: i32) -> bool {
    let mut below = BTreeSet::from([x]);
    loop {
        let found: BTreeSet<i32> = gates
            .iter()
            .filter(|gate| below.contains(&gate.output))
            .flat_map(|gate| gate.a.iter().map(|input| input.abs()))
            .filter(|variable| !below.contains(variable))
            .collect();
        if found.is_empty() {
            return below.contains(&y);
        }
        below.extend(found);
    }
}

/// The level of each output, raised until it is one more than its inputs' highest.
fn levels(gates: &[Gate]) -> BTreeMap<i32, usize> {
    let mut level: BTreeMap<i32, usize> = gates.iter().map(|gate| (gate.output, 1)).collect();
    loop {
        let before = level.clone();
        for gate in gates {
            let highest = gate.a.iter().map(|input| level.get(&input.abs()).copied().unwrap_or(0)).max();
            level.insert(gate.output, 1 + highest.unwrap_or(0));
        }
        if level == before {
            return level;
        }
    }
}

impl Gate {
    /// The kind's name and the inputs as the listing shows them.
    fn shown(&self) -> (&'static str, Vec<i32>) {
        let plain: Vec<i32> = self.a.iter().map(|input| input.abs()).collect();
        if let Some(odd) = self.parity {
            return (if odd { "xor" } else { "xnor" }, plain);
        }
        let names = if self.o > 0 { ["and", "nor", "cg"] } else { ["or", "nand", "dg"] };
        let inputs: Vec<i32> = self.a.iter().map(|input| input * self.o.signum()).collect();
        match inputs.iter().filter(|input| **input > 0).count() {
            positive if positive == inputs.len() => (names[0], plain),
            0 => (names[1], plain),
            _ => (names[2], inputs),
        }
    }

    /// The value of the output: o is the and of the a, a parity group's output the xor of the others or its opposite.
    fn value(&self, literal: impl Fn(i32) -> bool) -> bool {
        match self.parity {
            Some(odd) => self.a.iter().fold(!odd, |sum, input| sum ^ literal(*input)),
            None => self.a.iter().all(|input| literal(*input)) == (self.o > 0),
        }
    }
}

impl Circuit {
    pub fn listing(&self, settled: &Settled) -> String {
        let mut lines = Vec::new();
        let mut fixed = Vec::new();
        let mut linked = Vec::new();
        for (variable, meaning) in &settled.meaning {
            match meaning {
                Meaning::Fixed(value) => fixed.push(format!("F\t{variable}\t{}", u8::from(*value))),
                Meaning::Stands(literal) if literal != variable => linked.push(format!("L\t{variable}\t{literal}")),
                Meaning::Stands(_) => {}
            }
        }
        lines.push(format!(
            "B\t{}\t{}\t{}\t{}\t{}\t{}\t{}",
            settled.n,
            settled.rounds,
            fixed.len(),
            linked.len(),
            self.gates.len(),
            self.free.len(),
            self.residue.len()
        ));
        lines.extend(fixed);
        lines.extend(linked);
        let fields = |row: &[i32]| row.iter().map(|field| format!("\t{field}")).collect::<String>();
        let mut in_order: Vec<&Gate> = self.gates.iter().collect();
        in_order.sort_by_key(|gate| (self.level[&gate.output], gate.output));
        for gate in in_order {
            let (name, inputs) = gate.shown();
            lines.push(format!("G\t{}\t{name}\t{}{}", self.level[&gate.output], gate.output, fields(&inputs)));
        }
        lines.extend(self.free.iter().map(|variable| format!("V\t{variable}")));
        lines.extend(self.residue.iter().map(|place| format!("R{}", fields(&settled.table[*place]))));
        lines.join("\n") + "\n"
    }

    /// All values: a variable is worked out as soon as what it stands on is.
    pub fn fill(&self, settled: &Settled, values: &[u8]) -> Vec<u8> {
        let mut known: BTreeMap<i32, bool> = BTreeMap::new();
        known.extend(self.free.iter().map(|variable| (*variable, values[*variable as usize - 1] == 1)));
        while known.len() < settled.meaning.len() {
            for gate in &self.gates {
                if gate.a.iter().all(|input| known.contains_key(&input.abs())) {
                    let value = gate.value(|literal| known[&literal.abs()] == (literal > 0));
                    known.insert(gate.output, value);
                }
            }
            for (variable, meaning) in &settled.meaning {
                match meaning {
                    Meaning::Fixed(value) => drop(known.insert(*variable, *value)),
                    Meaning::Stands(root) => {
                        if let Some(value) = known.get(&root.abs()).copied() {
                            known.insert(*variable, value == (*root > 0));
                        }
                    }
                }
            }
        }
        known.values().map(|value| u8::from(*value)).collect()
    }
}
