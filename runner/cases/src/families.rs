//! All cases in one row, for comparing two builders: the fixed ones, the slowest ones, and those of each seed.

use crate::case::{table_of, text_of, Case, Move, Pace, Start};
use crate::evenings;
use crate::random::Random;
use crate::small::{desk, small};
use crate::texts;
use crate::yards;

/// The cases that need no seed: the evenings, yards and texts at the sizes and one past each, the worst yards, every cut
/// and every spoiled byte of a small valid text.
pub fn fixed() -> Vec<Case> {
    let mut cases: Vec<Case> = evenings::cases();
    cases.extend(yards::yards(1_024).into_iter().map(|yard| yard.case).filter(|case| !is_slow(case)));
    cases.push(brief(yards::ladder(2, 1_024, yards::Order::Shuffled).case));
    for (n, table, ..) in yards::sizes() {
        cases.push(Case::of_table("sizes", cases.len() as u64, n, table));
    }
    for (name, text, ..) in texts::sizes() {
        cases.push(Case::of_text(name, 0, text));
    }
    cases.push(Case::of_text("long listing", 0, texts::long_listing()));
    let valid = texts::VALID.as_bytes();
    let spoiled = (0..valid.len()).flat_map(|place| texts::spoiled(valid, place));
    let damaged = texts::cuts(valid).chain(spoiled).map(|text| Case::of_text("a damaged byte", 0, text));
    cases.extend(damaged.map(|case| Case { many: true, ..case }));
    cases
}

/// The ladders over all variables of a full yard, each in about as many rounds as it has variables.
pub fn slowest() -> Vec<Case> {
    let yards = yards::yards(1_024).into_iter().chain([yards::heavy_ladder(7, 1_024, 901, 2_296)]);
    yards.map(|yard| yard.case).filter(is_slow).map(brief).collect()
}

fn is_slow(case: &Case) -> bool {
    case.family.contains("ladder") && case.size() > 2_000
}

fn brief(case: Case) -> Case {
    Case { pace: Pace::Brief, ..case }
}

/// The cases of one seed, small ones first.
pub fn of_seed(seed: u64) -> Vec<Case> {
    let mut cases = vec![
        small(seed, 4 + (seed % 7) as usize),
        texts::damaged(seed),
        texts::thrown(seed),
        yards::planted(seed, 10, 40, 160).case,
    ];
    if seed.is_multiple_of(8) {
        cases.push(night(seed));
        cases.push(yards::planted(seed, 60, 200, 900).case);
        cases.push(bare(seed));
    }
    if seed.is_multiple_of(64) {
        cases.extend(yards::yards(24 + (seed / 64 % 16) as usize * 2).into_iter().map(|yard| yard.case));
    }
    if seed.is_multiple_of(256) {
        let full = yards::planted(seed, 1_024, 4_096, 16_384).case;
        if let Start::Table { n, table } = &full.start {
            cases.push(texts::damaged_text(seed, text_of(*n, table).into_bytes()));
        }
        cases.push(full);
    }
    cases
}

/// A long run of pins and take-backs over a few variables, past the 64 pins that a book holds.
pub fn night(seed: u64) -> Case {
    let random = &mut Random::new(seed ^ 0x0419);
    let mut case = small(seed, 6);
    let Start::Table { n, .. } = case.start else {
        return case;
    };
    case.family = "night".to_string();
    case.moves.clear();
    let liked: Vec<i32> = (1..=n as i32).map(|variable| random.sign(variable)).collect();
    let percent = *random.pick(&[5, 20, 45]);
    for _ in 0..90 {
        let step = match random.below(100) {
            chance if chance < percent || liked.is_empty() => Move::TakeBack,
            chance if chance > 96 => Move::Pin(-*random.pick(&liked)),
            _ => Move::Pin(*random.pick(&liked)),
        };
        case.moves.push(step);
    }
    case
}

/// A table that may be unsound anywhere: entries thrown together, sizes passed by a little, odd books.
pub fn bare(seed: u64) -> Case {
    let random = &mut Random::new(seed ^ 0xba6e);
    let n = *random.pick(&[0, 1, 3, 5, 1_024, 1_025, u32::MAX]);
    let within = n.clamp(1, 6) as usize;
    let mut clauses: Vec<Vec<i32>> = Vec::new();
    for _ in 0..random.below(8) {
        let width = if random.chance(4) { random.within(63, 66) } else { random.below(5) };
        let literal = |_| {
            let variable = random.within(1, within) as i32;
            random.sign(variable)
        };
        clauses.push((0..width).map(literal).collect());
    }
    let mut table = table_of(&clauses);
    if random.chance(20) && !table.is_empty() {
        let place = random.below(table.len());
        table[place] = *random.pick(&[0, 7, -7, 1_024, 1_025, i32::MIN, i32::MAX]);
    }
    if random.chance(20) {
        table.pop();
    }
    if random.chance(4) {
        table.extend(vec![0; 4_094 + random.below(5)]);
    }
    if random.chance(4) {
        table.resize(random.within(16_382, 16_386), *random.pick(&[0, 1]));
    }
    // The desk is set for a number of variables that values can be made for.
    let mut case = Case::of_table("bare", seed, n.min(2_000), Vec::new());
    desk(random, &mut case);
    case.start = Start::Table { n, table };
    case
}
