//! Small tables rich in gates, with runs of pins and take-backs.

use crate::builder::Book;
use crate::case::{table_of, Case, Move};
use crate::random::Random;

/// A small case over at most `most` variables.
pub fn small(seed: u64, most: usize) -> Case {
    let random = &mut Random::new(seed);
    let n = if random.chance(3) { random.below(3) } else { random.within(3.min(most), most) };
    let mut clauses = Vec::new();
    if n > 0 {
        for _ in 0..random.within(1, 6) {
            clauses.extend(piece(random, n, &clauses));
        }
    }
    if random.chance(1) {
        clauses.push(Vec::new());
    }
    if random.chance(70) {
        random.shuffle(&mut clauses);
    }
    for clause in &mut clauses {
        if random.chance(60) {
            random.shuffle(clause);
        }
    }
    let mut case = Case::of_table("small", seed, n as u32, table_of(&clauses));
    desk(random, &mut case);
    case
}

/// A piece of a table: a gate's clauses, whole or with one clause lost, links, rings, repeats, void clauses, units.
fn piece(random: &mut Random, n: usize, so_far: &[Vec<i32>]) -> Vec<Vec<i32>> {
    let choice = random.below(100);
    let mut clauses = match choice {
        0..=29 if n >= 3 => {
            let most = (n - 1).min(4);
            let inputs = random.within(2, most);
            let variables = random.variables(n, inputs + 1);
            let signed: Vec<i32> = variables.iter().map(|variable| random.sign(*variable)).collect();
            and_form(signed[0], &signed[1..])
        }
        30..=49 if n >= 3 => {
            let width = random.within(3, n.min(5));
            parity(&random.variables(n, width), random.chance(50))
        }
        50..=61 if n >= 2 => {
            let two = random.variables(n, 2);
            link(two[0], random.sign(two[1]))
        }
        62..=67 if n >= 5 => ring(random, n),
        68..=72 if n >= 3 => exactly_one(random, n),
        73..=78 if !so_far.is_empty() => {
            let mut again = random.pick(so_far).clone();
            random.shuffle(&mut again);
            if let Some(first) = again.first().copied() {
                if random.chance(40) {
                    again.push(first);
                }
            }
            vec![again]
        }
        79..=82 => {
            let variable = random.within(1, n) as i32;
            vec![vec![random.sign(variable), variable, -variable]]
        }
        83..=86 => {
            let variable = random.within(1, n) as i32;
            vec![vec![random.sign(variable)]]
        }
        87..=90 if n >= 3 => ladder(random, n),
        _ => {
            let width = random.within(2, n.clamp(2, 5));
            let literals = (0..width).map(|_| {
                let variable = random.within(1, n) as i32;
                random.sign(variable)
            });
            vec![literals.collect()]
        }
    };
    if clauses.len() > 2 && random.chance(15) {
        clauses.remove(random.below(clauses.len()));
    }
    clauses
}

/// (o -a1 .. -am) and every (-o ai).
pub fn and_form(o: i32, a: &[i32]) -> Vec<Vec<i32>> {
    let mut clauses = vec![[&[o][..], &a.iter().map(|input| -input).collect::<Vec<_>>()].concat()];
    clauses.extend(a.iter().map(|input| vec![-o, *input]));
    clauses
}

/// All clauses over the variables with an odd or an even number of negative literals.
pub fn parity(variables: &[i32], odd: bool) -> Vec<Vec<i32>> {
    let signed = |signs: u32| {
        let literal = |(at, variable): (usize, &i32)| if signs >> at & 1 == 1 { -variable } else { *variable };
        variables.iter().enumerate().map(literal).collect()
    };
    (0..1_u32 << variables.len()).filter(|signs| (signs.count_ones() % 2 == 1) == odd).map(signed).collect()
}

/// a equals b.
pub fn link(a: i32, b: i32) -> Vec<Vec<i32>> {
    vec![vec![-a, b], vec![a, -b]]
}

/// Two or three and-forms, each over the next one's output.
fn ring(random: &mut Random, n: usize) -> Vec<Vec<i32>> {
    let length = if n >= 6 { random.within(2, 3) } else { 2 };
    let variables = random.variables(n, 2 * length);
    let signed: Vec<i32> = variables.iter().map(|variable| random.sign(*variable)).collect();
    let (outputs, others) = signed.split_at(length);
    let gate = |at: usize| {
        let mut inputs = vec![outputs[(at + 1) % length]];
        inputs.extend(others.get(at));
        inputs
    };
    (0..length).filter(|at| gate(*at).len() > 1).flat_map(|at| and_form(outputs[at], &gate(at))).collect()
}

/// Exactly one of some literals: each of them can be the output.
fn exactly_one(random: &mut Random, n: usize) -> Vec<Vec<i32>> {
    let width = random.within(3, n.min(5));
    let literals: Vec<i32> = random.variables(n, width).iter().map(|variable| random.sign(*variable)).collect();
    let mut clauses = vec![literals.clone()];
    for (at, first) in literals.iter().enumerate() {
        clauses.extend(literals[at + 1..].iter().map(|second| vec![-first, -second]));
    }
    clauses
}

/// Links of which each shows only after the last.
fn ladder(random: &mut Random, n: usize) -> Vec<Vec<i32>> {
    let variables: Vec<i32> = random.variables(n, n.min(5)).iter().map(|v| random.sign(*v)).collect();
    rungs(&variables)
}

/// The first two literals are equal; each further rung says that the next literal equals the two before it, as soon as
/// they are known to be equal.
pub fn rungs(literals: &[i32]) -> Vec<Vec<i32>> {
    let mut clauses = link(literals[0], literals[1]);
    for three in literals.windows(3) {
        clauses.push(vec![three[0], three[1], -three[2]]);
        clauses.push(vec![-three[0], -three[1], three[2]]);
    }
    clauses
}

/// A book, moves and values for a table, mostly good ones.
pub fn desk(random: &mut Random, case: &mut Case) {
    let crate::case::Start::Table { n, .. } = case.start else {
        return;
    };
    let literal = |random: &mut Random| {
        if n == 0 || random.chance(3) {
            return *random.pick(&[0, n as i32 + 1, -(n as i32) - 1, i32::MIN, i32::MAX]);
        }
        let variable = random.within(1, n as usize) as i32;
        random.sign(variable)
    };
    if random.chance(12) {
        case.book.length = *random.pick(&[1, 2, 3, 63, 64, 65, usize::MAX]);
        let same = literal(random);
        for pin in &mut case.book.pins[..case.book.length.min(64)] {
            *pin = same;
        }
    }
    if random.chance(8) {
        // What stands behind the length means nothing.
        case.book.pins[63] = 99;
    }
    if random.chance(60) {
        for _ in 0..random.within(1, 10) {
            let step = if random.chance(35) { Move::TakeBack } else { Move::Pin(literal(random)) };
            case.moves.push(step);
        }
    }
    let n = n as usize;
    let length = if random.chance(90) { n } else { random.below(n + 3) };
    let odd = random.chance(10);
    case.values = (0..length)
        .map(|_| if odd && random.chance(30) { *random.pick(&[2, 255, 48]) } else { random.below(2) as u8 })
        .collect();
}

/// The books that the moves lead through when every pin in range is accepted: for checks that need a book alone.
pub fn books(case: &Case, n: u32) -> Vec<Book> {
    let mut books = vec![case.book];
    let mut book = case.book;
    for step in &case.moves {
        match step {
            Move::Pin(literal) if book.length < 64 && (1..=n).contains(&literal.unsigned_abs()) => {
                book.pins[book.length] = *literal;
                book.length += 1;
            }
            Move::TakeBack if (1..=64).contains(&book.length) => {
                book.length -= 1;
                book.pins[book.length] = 0;
            }
            _ => {}
        }
        books.push(book);
    }
    let sound = |book: &Book| {
        let held = book.pins.get(..book.length);
        held.is_some_and(|held| held.iter().all(|pin| (1..=n).contains(&pin.unsigned_abs())))
    };
    books.retain(sound);
    books
}
