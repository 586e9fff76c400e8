//! Yards of any size whose plan is known from the way they are made: full tables, ladders of links, chains in bad order,
//! deep parity chains, wide gates, rings, and planted yards with a satisfying assignment.

use crate::case::{table_of, Case, Move};
use crate::random::Random;
use crate::small::{and_form, link, parity, rungs};

/// A yard, with what is known of its plan.
pub struct Yard {
    pub case: Case,
    /// The listing's B line with blanks for tabs, or the X line, where it is known.
    pub line: Option<String>,
    /// An assignment that satisfies the table and all pins of the moves.
    pub known: Option<Vec<u8>>,
}

fn yard(name: &str, seed: u64, n: usize, clauses: &[Vec<i32>], line: String) -> Yard {
    let mut case = Case::of_table(name, seed, n as u32, table_of(clauses));
    let random = &mut Random::new(seed);
    case.values = (0..n).map(|_| random.below(2) as u8).collect();
    Yard { case, line: Some(line), known: None }
}

/// In which order clauses or variables come.
#[derive(Clone, Copy, Debug, PartialEq, Eq)]
pub enum Order {
    Rising,
    Falling,
    Shuffled,
}

pub const ORDERS: [Order; 3] = [Order::Rising, Order::Falling, Order::Shuffled];

fn put<T>(random: &mut Random, order: Order, row: &mut [T]) {
    match order {
        Order::Rising => {}
        Order::Falling => row.reverse(),
        Order::Shuffled => random.shuffle(row),
    }
}

/// A ladder over all variables: each round finds one link, so the rounds are as many as the variables.
pub fn ladder(seed: u64, n: usize, order: Order) -> Yard {
    let random = &mut Random::new(seed);
    let mut literals: Vec<i32> = (1..=n as i32).map(|variable| random.sign(variable)).collect();
    put(random, order, &mut literals);
    let clauses = rungs(&literals);
    yard(&format!("ladder {n} {order:?}"), seed, n, &clauses, format!("B {n} {n} 0 {} 0 1 0", n - 1))
}

/// A ladder over the first `rungs_over` variables, and as many clauses as still fit over its first literal and two other
/// variables each: every round gives the ladder's class a lower name, in all of these clauses.
pub fn heavy_ladder(seed: u64, n: usize, rungs_over: usize, extra: usize) -> Yard {
    let random = &mut Random::new(seed);
    let literals: Vec<i32> = (1..=rungs_over as i32).rev().collect();
    let mut clauses = rungs(&literals);
    let mut twos = Vec::new();
    for low in rungs_over + 1..=n {
        twos.extend((low + 1..=n).map(|high| (low as i32, high as i32)));
    }
    random.shuffle(&mut twos);
    clauses.extend(twos.iter().take(extra).map(|(low, high)| vec![literals[0], *low, *high]));
    let extra = extra.min(twos.len());
    let (links, free) = (rungs_over - 1, n - rungs_over + 1);
    let line = format!("B {n} {rungs_over} 0 {links} 0 {free} {extra}");
    yard(&format!("heavy ladder {n}"), seed, n, &clauses, line)
}

/// Links from each variable to the next: one class, found in one round.
pub fn links(seed: u64, n: usize, order: Order) -> Yard {
    let random = &mut Random::new(seed);
    let mut clauses = Vec::new();
    for variable in 1..n as i32 {
        let next = random.sign(variable + 1);
        clauses.extend(link(variable, next));
    }
    put(random, order, &mut clauses);
    yard(&format!("links {n} {order:?}"), seed, n, &clauses, format!("B {n} 2 0 {} 0 1 0", n - 1))
}

/// A unit and a chain of clauses that it forces one after the other.
pub fn forced(seed: u64, n: usize, order: Order) -> Yard {
    let random = &mut Random::new(seed);
    let literals: Vec<i32> = (1..=n as i32).map(|variable| random.sign(variable)).collect();
    let mut clauses = vec![vec![literals[0]]];
    clauses.extend(literals.windows(2).map(|two| vec![-two[0], two[1]]));
    put(random, order, &mut clauses);
    let mut forced = yard(&format!("forced {n} {order:?}"), seed, n, &clauses, format!("B {n} 1 {n} 0 0 0 0"));
    forced.known = Some(literals.iter().map(|literal| u8::from(*literal > 0)).collect());
    forced
}

/// The same chain closed by a clause that can't hold.
pub fn forced_to_contradiction(seed: u64, n: usize, order: Order) -> Yard {
    let random = &mut Random::new(seed);
    let mut clauses = vec![vec![1], vec![-(n as i32)]];
    clauses.extend((1..n as i32).map(|variable| vec![-variable, variable + 1]));
    put(random, order, &mut clauses);
    yard(&format!("contradiction {n} {order:?}"), seed, n, &clauses, "X 4 1".to_string())
}

/// Parity gates, each over the two variables after its output: n - 2 gates, the highest level n - 2.
pub fn parity_chain(seed: u64, n: usize, order: Order) -> Yard {
    let random = &mut Random::new(seed);
    let mut groups: Vec<Vec<Vec<i32>>> =
        (1..=n as i32 - 2).map(|output| parity(&[output, output + 1, output + 2], random.chance(50))).collect();
    put(random, order, &mut groups);
    let clauses: Vec<Vec<i32>> = groups.into_iter().flatten().collect();
    yard(&format!("parity chain {n} {order:?}"), seed, n, &clauses, format!("B {n} 1 0 0 {} 2 0", n - 2))
}

/// And-forms of so many inputs each, outputs first; all signs at random.
pub fn wide(seed: u64, n: usize, gates: usize, inputs: usize) -> Yard {
    let random = &mut Random::new(seed);
    let mut clauses = Vec::new();
    for output in 1..=gates as i32 {
        let over = random.variables(n - gates, inputs);
        let signed: Vec<i32> = over.iter().map(|variable| random.sign(variable + gates as i32)).collect();
        clauses.extend(and_form(random.sign(output), &signed));
    }
    random.shuffle(&mut clauses);
    let line = format!("B {n} 1 0 0 {gates} {} 0", n - gates);
    yard(&format!("wide {gates} of {inputs}"), seed, n, &clauses, line)
}

/// Exactly one of each block of variables: every literal of the long clause could be the output, the lowest is taken.
pub fn exactly_one(seed: u64, n: usize, blocks: usize, width: usize) -> Yard {
    let random = &mut Random::new(seed);
    let mut clauses = Vec::new();
    for block in 0..blocks {
        let first = (block * width) as i32 + 1;
        let variables = first..first + width as i32;
        clauses.push(variables.clone().collect());
        clauses.extend(variables.clone().flat_map(|low| (low + 1..first + width as i32).map(move |h| vec![-low, -h])));
    }
    random.shuffle(&mut clauses);
    let residue = blocks * (width * (width - 1) / 2 - (width - 1));
    let line = format!("B {n} 1 0 0 {blocks} {} {residue}", n - blocks);
    yard(&format!("exactly one of {width}"), seed, n, &clauses, line)
}

/// A ring of and-forms, each over the next one's output and a variable of its own: the last one in the table is given up.
pub fn ring(seed: u64, length: usize, order: Order) -> Yard {
    let random = &mut Random::new(seed);
    let m = length as i32;
    let mut gates: Vec<Vec<Vec<i32>>> = (1..=m).map(|output| and_form(output, &[output % m + 1, m + output])).collect();
    put(random, order, &mut gates);
    let clauses: Vec<Vec<i32>> = gates.into_iter().flatten().collect();
    let n = 2 * length;
    let line = format!("B {n} 1 0 0 {} {} 3", length - 1, length + 1);
    yard(&format!("ring {length} {order:?}"), seed, n, &clauses, line)
}

/// So many clauses of three positive literals over different sets of variables: nothing follows from them.
pub fn plain(seed: u64, n: usize, clauses: usize) -> Yard {
    let random = &mut Random::new(seed);
    let mut rows = std::collections::BTreeSet::new();
    while rows.len() < clauses {
        let mut row = random.variables(n, 3);
        row.sort_unstable();
        rows.insert(row);
    }
    let mut rows: Vec<Vec<i32>> = rows.into_iter().collect();
    random.shuffle(&mut rows);
    yard(&format!("plain {clauses}"), seed, n, &rows, format!("B {n} 1 0 0 0 {n} {clauses}"))
}

/// One clause of three literals again and again, its literals in any order: one stays.
pub fn repeats(seed: u64, n: usize, clauses: usize) -> Yard {
    let random = &mut Random::new(seed);
    let row = |_| {
        let mut row = vec![1, 2, 3];
        random.shuffle(&mut row);
        row
    };
    let rows: Vec<Vec<i32>> = (0..clauses).map(row).collect();
    yard("repeats", seed, n, &rows, format!("B {n} 1 0 0 0 {n} 1"))
}

/// Tables one past each size, with the refusal's place; a table that just fits stands before each.
pub fn sizes() -> Vec<(u32, Vec<i32>, u32, usize)> {
    let wide = |literals: usize| [vec![1; literals], vec![0]].concat();
    let threes = [1, 2, 3, 0].repeat(4_096);
    vec![
        (1_024, vec![1_024, 0], 0, 0),
        (1_025, vec![1_025, 0], 2, 0),
        (1_024, [1_024, -1_024, 0].repeat(4_096), 0, 0),
        (1_024, [1_024, 0].repeat(4_097), 2, 8_193),
        (3, threes.clone(), 0, 0),
        (3, [&threes[..], &[0]].concat(), 2, 16_384),
        (3, [&threes[..16_383], &[1, 0]].concat(), 2, 16_384),
        (1, wide(64), 0, 0),
        (1, wide(65), 2, 64),
        (1, wide(64).repeat(252), 0, 0),
        (1, [&threes[..], &[1]].concat(), 2, 16_384),
    ]
}

/// A yard grown around an assignment: free variables, links, units and gates over variables before them, then clauses
/// that the assignment satisfies, until it holds just so many clauses or entries. The moves pin what the assignment says.
pub fn planted(seed: u64, n: usize, most_clauses: usize, most_entries: usize) -> Yard {
    let random = &mut Random::new(seed);
    let mut holds = vec![false; n + 1];
    let mut before: Vec<i32> = Vec::new();
    let mut clauses: Vec<Vec<i32>> = Vec::new();
    let mut entries = 0;
    let is = |holds: &[bool], literal: i32| holds[literal.unsigned_abs() as usize] == (literal > 0);
    for variable in random.variables(n, n) {
        let at = variable as usize;
        holds[at] = random.chance(50);
        let of = |random: &mut Random, count: usize| -> Vec<i32> {
            let places = random.variables(before.len(), count);
            places.iter().map(|place| random.sign(before[*place as usize - 1])).collect()
        };
        let piece = match random.below(100) {
            0..=2 => vec![vec![if holds[at] { variable } else { -variable }]],
            3..=14 if !before.is_empty() => {
                let other = of(random, 1)[0];
                holds[at] = is(&holds, other);
                link(variable, other)
            }
            15..=54 if before.len() > 2 => {
                let most = if random.chance(2) { 63 } else { 5 };
                let inputs = random.within(2, most.min(before.len()));
                let (o, a) = (random.sign(variable), of(random, inputs));
                holds[at] = a.iter().all(|input| is(&holds, *input)) == (o > 0);
                and_form(o, &a)
            }
            55..=74 if before.len() > 4 => {
                let inputs = random.within(2, 4);
                let over: Vec<i32> = of(random, inputs).iter().map(|literal| literal.abs()).collect();
                let odd = random.chance(50);
                holds[at] = over.iter().fold(!odd, |sum, input| sum != is(&holds, *input));
                parity(&[&[variable], &over[..]].concat(), odd)
            }
            _ => Vec::new(),
        };
        let more: usize = piece.iter().map(|clause| clause.len() + 1).sum();
        if clauses.len() + piece.len() <= most_clauses && entries + more <= most_entries {
            clauses.extend(piece);
            entries += more;
        }
        before.push(variable);
    }
    while n > 0 && clauses.len() < most_clauses && entries + 2 <= most_entries {
        // The last clause that fits takes all that is left, up to 64 literals.
        let left = most_entries - entries - 1;
        let width = if left <= 7 { left } else { random.within(2, 6) };
        let true_one = random.within(1, n) as i32;
        let mut clause = vec![if holds[true_one as usize] { true_one } else { -true_one }];
        clause.extend((1..width).map(|_| {
            let variable = random.within(1, n) as i32;
            random.sign(variable)
        }));
        random.shuffle(&mut clause);
        entries += clause.len() + 1;
        clauses.push(clause);
    }
    random.shuffle(&mut clauses);
    let mut case = Case::of_table("planted", seed, n as u32, table_of(&clauses));
    for _ in 0..random.below(6).min(n) {
        let variable = random.within(1, n) as i32;
        case.moves.push(Move::Pin(if holds[variable as usize] { variable } else { -variable }));
    }
    case.values = (0..n).map(|_| random.below(2) as u8).collect();
    let known = holds[1..].iter().map(|value| u8::from(*value)).collect();
    Yard { case, line: None, known: Some(known) }
}

/// Parity groups over any three variables: many gates, and many given up for rings.
pub fn triples(seed: u64, n: usize, groups: usize) -> Yard {
    let random = &mut Random::new(seed);
    let mut clauses = Vec::new();
    for _ in 0..groups {
        let three = random.variables(n, 3);
        clauses.extend(parity(&three, random.chance(50)));
    }
    let any = yard(&format!("triples {groups}"), seed, n, &clauses, String::new());
    Yard { line: None, ..any }
}

/// And-forms whose outputs are inputs of each other all over: each is tried, many are given up for rings.
pub fn tangle(seed: u64, n: usize, gates: usize) -> Yard {
    let random = &mut Random::new(seed);
    let mut clauses = Vec::new();
    for _ in 0..gates {
        let three: Vec<i32> = random.variables(n, 3).iter().map(|variable| random.sign(*variable)).collect();
        clauses.extend(and_form(three[0], &three[1..]));
    }
    let any = yard(&format!("tangle {gates}"), seed, n, &clauses, String::new());
    Yard { line: None, ..any }
}

/// All yards at one scale: n variables at most, and tables of no more than n * 4 clauses and n * 16 entries, which for
/// n = 1,024 are the sizes of the rules.
pub fn yards(n: usize) -> Vec<Yard> {
    let mut yards = Vec::new();
    for order in ORDERS {
        yards.push(ladder(1, n, order));
        yards.push(links(2, n, order));
        yards.push(forced(3, n, order));
        yards.push(forced_to_contradiction(4, n, order));
        yards.push(parity_chain(5, n, order));
        yards.push(ring(6, n / 2, order));
    }
    yards.push(heavy_ladder(7, n, n * 7 / 8, n * 2));
    let inputs = 63.min(n / 2);
    yards.push(wide(8, n, (n * 16 / (4 * inputs + 2)).min(4 * n / (inputs + 1)), inputs));
    let width = 64.min(n / 2);
    yards.push(exactly_one(9, n, 2, width.min(n / 5 + 3)));
    yards.push(plain(10, n, 4 * n));
    yards.push(repeats(11, n, 4 * n));
    yards.push(triples(12, n, n * 7 / 8));
    yards.push(triples(13, n, n));
    yards.push(tangle(14, n, n * 4 / 3));
    yards
}
