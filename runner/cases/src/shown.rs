//! A listing read back: its form is judged line by line, its gates are written out as clauses again, and its variables
//! filled in, all from the printed lines alone.

use std::collections::{BTreeMap, BTreeSet};

pub type Set = BTreeSet<i32>;

/// A gate as printed.
#[derive(Clone, Debug)]
pub struct Gate {
    pub level: usize,
    pub kind: String,
    pub output: i32,
    pub inputs: Vec<i32>,
}

/// A listing as printed.
#[derive(Clone, Debug, Default)]
pub struct Shown {
    pub n: i32,
    pub rounds: usize,
    pub fixed: BTreeMap<i32, bool>,
    pub links: BTreeMap<i32, i32>,
    pub gates: Vec<Gate>,
    pub free: Vec<i32>,
    pub residue: Vec<Vec<i32>>,
}

fn number(field: &str) -> Result<i32, String> {
    match field.parse::<i32>() {
        Ok(number) if number.to_string() == field => Ok(number),
        _ => Err(format!("{field:?} is no number")),
    }
}

fn numbers(fields: &[&str]) -> Result<Vec<i32>, String> {
    fields.iter().map(|field| number(field)).collect()
}

fn ensure(holds: bool, what: &str) -> Result<(), String> {
    if holds {
        return Ok(());
    }
    Err(format!("the listing: {what}"))
}

fn rising<T: PartialOrd>(row: &[T]) -> bool {
    row.windows(2).all(|two| two[0] < two[1])
}

impl Shown {
    /// Reads a listing and judges its form: record order, rising variables, counts, levels, signs, and exactly one part
    /// for every variable.
    pub fn read(listing: &[u8]) -> Result<Shown, String> {
        let text = std::str::from_utf8(listing).map_err(|_| "the listing is no text".to_string())?;
        ensure(text.ends_with('\n'), "the last line has no LF")?;
        let mut shown = Shown::default();
        let mut counts = Vec::new();
        let mut order = Vec::new();
        for line in text[..text.len() - 1].split('\n') {
            let fields: Vec<&str> = line.split('\t').collect();
            order.push("BFLGVR".find(fields[0]).ok_or(format!("{line:?} is no record"))?);
            if fields[0] == "G" {
                ensure(fields.len() > 4, "a gate of too few fields")?;
                let kind = fields[2].to_string();
                let level = number(fields[1])? as usize;
                let (output, inputs) = (number(fields[3])?, numbers(&fields[4..])?);
                shown.gates.push(Gate { level, kind, output, inputs });
                continue;
            }
            let row = numbers(&fields[1..])?;
            match (fields[0], &row[..]) {
                ("B", [n, rounds, ..]) if row.len() == 7 => {
                    (shown.n, shown.rounds) = (*n, *rounds as usize);
                    counts = row[2..].to_vec();
                }
                ("F", [variable, value @ (0 | 1)]) => drop(shown.fixed.insert(*variable, *value == 1)),
                ("L", [variable, literal]) => drop(shown.links.insert(*variable, *literal)),
                ("V", [variable]) => shown.free.push(*variable),
                ("R", [_, _, ..]) => shown.residue.push(row),
                _ => return Err(format!("{line:?} is out of form")),
            }
        }
        ensure(order.windows(2).all(|two| two[0] <= two[1]), "records out of order")?;
        ensure(order.iter().filter(|place| **place == 0).count() == 1, "not one B line")?;
        let lines = [1, 2, 3, 4, 5].map(|letter| order.iter().filter(|place| **place == letter).count() as i32);
        ensure(counts == lines, "the counts of the B line are not those of the lines")?;
        shown.judge(text)?;
        Ok(shown)
    }

    fn judge(&self, text: &str) -> Result<(), String> {
        let column = |letter: char| -> Vec<i32> {
            let of = text.lines().filter(|line| line.starts_with(letter));
            of.filter_map(|line| line.split('\t').nth(1)?.parse().ok()).collect()
        };
        ensure(rising(&column('F')) && rising(&column('L')) && rising(&column('V')), "variables don't rise")?;
        let by_level: Vec<(usize, i32)> = self.gates.iter().map(|gate| (gate.level, gate.output)).collect();
        ensure(rising(&by_level), "gates not by level, then output")?;
        let outputs = self.gates.iter().map(|gate| gate.output);
        let roots: BTreeSet<i32> = outputs.clone().chain(self.free.iter().copied()).collect();
        let others = self.fixed.keys().chain(self.links.keys());
        let mut all: Vec<i32> = outputs.chain(self.free.iter().copied()).chain(others.copied()).collect();
        all.sort_unstable();
        ensure(all == (1..=self.n).collect::<Vec<_>>(), "not exactly one part for each variable")?;
        let of_root = |literal: &i32| roots.contains(&literal.abs());
        ensure(self.links.values().all(of_root), "a link to no root")?;
        ensure(self.residue.iter().flatten().all(of_root), "residue over no root")?;
        let level: BTreeMap<i32, usize> = self.gates.iter().map(|gate| (gate.output, gate.level)).collect();
        for gate in &self.gates {
            let variables: Vec<i32> = gate.inputs.iter().map(|input| input.abs()).collect();
            ensure(rising(&variables) && gate.inputs.iter().all(of_root), "inputs of a gate")?;
            let signs = gate.inputs.iter().filter(|input| **input < 0).count();
            let mixed = signs > 0 && signs < gate.inputs.len();
            ensure(if ["cg", "dg"].contains(&&*gate.kind) { mixed } else { signs == 0 }, "signs of inputs")?;
            let most = if gate.kind.starts_with('x') { 4 } else { 63 };
            ensure((2..=most).contains(&gate.inputs.len()), "number of inputs")?;
            let highest = variables.iter().map(|input| level.get(input).copied().unwrap_or(0)).max();
            ensure(Some(gate.level) == highest.map(|highest| highest + 1), "the level of a gate")?;
        }
        for clause in &self.residue {
            let variables: Vec<i32> = clause.iter().map(|literal| literal.abs()).collect();
            ensure(rising(&variables) && clause.len() <= 64, "a residue clause's order")?;
        }
        Ok(())
    }

    /// Gates written out again as clauses, with the residue.
    pub fn clauses(&self) -> Result<Vec<Set>, String> {
        let mut clauses: Vec<Set> = self.residue.iter().map(|clause| clause.iter().copied().collect()).collect();
        for gate in &self.gates {
            clauses.extend(gate.clauses()?);
        }
        Ok(clauses)
    }

    /// All variables from values of the free ones, from the printed lines alone.
    pub fn fill(&self, free: impl Fn(i32) -> bool) -> Result<Vec<u8>, String> {
        let mut holds: BTreeMap<i32, bool> = self.free.iter().map(|variable| (*variable, free(*variable))).collect();
        for gate in &self.gates {
            let value = gate.value(|literal| holds[&literal.abs()] == (literal > 0))?;
            holds.insert(gate.output, value);
        }
        holds.extend(&self.fixed);
        for (variable, literal) in &self.links {
            holds.insert(*variable, holds[&literal.abs()] == (*literal > 0));
        }
        Ok(holds.values().map(|value| u8::from(*value)).collect())
    }
}

impl Gate {
    /// The gate's clauses by its formula.
    pub fn clauses(&self) -> Result<Vec<Set>, String> {
        let and = |o: i32, a: Vec<i32>| {
            let mut clauses: Vec<Set> = a.iter().map(|input| Set::from([-o, *input])).collect();
            clauses.push(a.iter().map(|input| -input).chain([o]).collect());
            clauses
        };
        let opposites = || self.inputs.iter().map(|input| -input).collect();
        Ok(match &*self.kind {
            "and" | "cg" => and(self.output, self.inputs.clone()),
            "nor" => and(self.output, opposites()),
            "or" | "dg" => and(-self.output, opposites()),
            "nand" => and(-self.output, self.inputs.clone()),
            "xor" => self.patterns(1),
            "xnor" => self.patterns(0),
            other => return Err(format!("{other:?} is no kind")),
        })
    }

    /// All clauses over the output and the inputs with an odd or an even number of negative literals.
    fn patterns(&self, odd: u32) -> Vec<Set> {
        let variables: Vec<i32> = self.inputs.iter().copied().chain([self.output]).collect();
        let signed = |mask: u32| {
            let literal = |(at, variable): (usize, &i32)| if mask >> at & 1 == 1 { -variable } else { *variable };
            variables.iter().enumerate().map(literal).collect()
        };
        (0..1 << variables.len()).filter(|mask: &u32| mask.count_ones() % 2 == odd).map(signed).collect()
    }

    /// The value that the gate's clauses leave for its output: the one under which all of them hold.
    fn value(&self, literal: impl Fn(i32) -> bool) -> Result<bool, String> {
        let inputs = || self.inputs.iter().map(|input| literal(*input));
        Ok(match &*self.kind {
            "and" | "cg" => !inputs().any(|value| !value),
            "nand" => inputs().any(|value| !value),
            "or" | "dg" => inputs().any(|value| value),
            "nor" => !inputs().any(|value| value),
            "xor" => inputs().fold(false, |sum, value| sum != value),
            "xnor" => inputs().fold(true, |sum, value| sum != value),
            other => return Err(format!("{other:?} is no kind")),
        })
    }
}
