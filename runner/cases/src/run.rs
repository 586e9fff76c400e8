//! Runs of cases with a count of those that passed and failed; a failing case is cut down and shown.

use crate::builder::{Book, Builder, Call};
use crate::case::{Case, Start};
use crate::checks::{against_words, reading, small_case, yard};
use crate::compare::{compare, lawful, Counts};
use crate::cut::cut;
use crate::demands::{round_trip, Built};
use crate::evenings::{evenings, held};
use crate::families::{fixed, of_seed};
use crate::random::Random;
use crate::texts;
use crate::words::Words;
use crate::yards;
use std::cell::RefCell;
use std::collections::BTreeMap;
use std::panic::{catch_unwind, AssertUnwindSafe};
use std::time::{Duration, Instant};

/// How many passed and failed.
#[derive(Default)]
pub struct Tally {
    pub passed: usize,
    pub failed: usize,
    /// How many calls of each kind a comparison compared, in the cases that passed.
    pub calls: Counts,
}

type Answer = Result<(), String>;

/// A check that panics has failed.
fn guarded(check: impl FnOnce() -> Answer) -> Answer {
    catch_unwind(AssertUnwindSafe(check)).unwrap_or_else(|_| Err("a panic".to_string()))
}

impl Tally {
    /// Counts a check by its name.
    pub fn count(&mut self, name: &str, check: impl FnOnce() -> Answer) {
        match guarded(check) {
            Ok(()) => self.passed += 1,
            Err(what) => {
                self.failed += 1;
                println!("FAILED {name}\n  {what}");
            }
        }
    }

    /// Counts a case; a failing one is cut down, by the same check.
    pub fn case(&mut self, case: &Case, check: impl Fn(&Case) -> Answer) {
        let answer = guarded(|| check(case));
        if answer.is_ok() {
            self.passed += 1;
            return;
        }
        self.failed += 1;
        println!("FAILED {} seed {}", case.family, case.seed);
        let smallest = cut(case, &|case| guarded(|| check(case)).is_err());
        let what = guarded(|| check(&smallest)).err().unwrap_or_default();
        println!("  {what}\n{smallest}");
    }

    /// The last line of a run.
    pub fn line(&self) -> String {
        format!("{} passed, {} failed", self.passed, self.failed)
    }
}

/// How many seeds the fixed run takes.
const SEEDS: u64 = 700;

/// The fixed cases, at most a minute.
pub fn test(builder: &dyn Builder) -> Tally {
    let mut tally = Tally::default();
    let words = &Words::default();
    // The words are what much is measured against, so they have to hold the evenings themselves.
    for by in [builder, words as &dyn Builder] {
        for (name, evening) in evenings() {
            tally.count(&format!("evening by {}: {name}", by.name()), || held(by, &evening));
        }
    }
    fixed_sizes(&mut tally, builder);
    for place in 0..texts::VALID.len() {
        let spoiled = texts::spoiled(texts::VALID.as_bytes(), place);
        each(&mut tally, &format!("every byte at {place}"), builder, spoiled);
    }
    each(&mut tally, "every cut", builder, texts::cuts(texts::VALID.as_bytes()));
    for yard_here in yards::yards(1_024) {
        tally.count(&yard_here.case.family, || yard(builder, &yard_here));
    }
    seeds(&mut tally, builder, 1, SEEDS);
    println!("small tables: {}", coverage(builder, 1, SEEDS));
    tally
}

/// Tables and texts at the sizes and one past each.
fn fixed_sizes(tally: &mut Tally, builder: &dyn Builder) {
    for (name, text, number, place) in texts::sizes() {
        tally.count(name, || reading(builder, &text, number, place));
    }
    for (at, (n, table, number, place)) in yards::sizes().into_iter().enumerate() {
        tally.count(&format!("size {at}"), || {
            lawful(builder, &Case::of_table("sizes", at as u64, n, table.clone()))?;
            let numbers = builder.check(n, &table);
            if (numbers.number, numbers.place) == (number, place) {
                return Ok(());
            }
            Err(format!("checked as {numbers:?}"))
        });
    }
    tally.count("a listing beyond its buffer", || {
        let printed = builder.program(&texts::long_listing());
        let words = Words::default().program(&texts::long_listing());
        if printed == words && printed.starts_with(b"X\t8\t") {
            return Ok(());
        }
        Err(format!("printed {:?}", String::from_utf8_lossy(&printed[..printed.len().min(80)])))
    });
}

/// Texts of one family, counted as one.
fn each(tally: &mut Tally, name: &str, builder: &dyn Builder, texts: impl Iterator<Item = Vec<u8>>) {
    let words = Words::default();
    let mut answer = Ok(());
    let mut case = Case::of_text(name, 0, Vec::new());
    case.values.truncate(12);
    for text in texts {
        case.start = Start::Text(text);
        answer = answer.and_then(|()| same_reading(builder, &words, &case));
    }
    tally.count(name, || answer);
}

/// A text read by both, without the table's calls behind it.
fn same_reading(builder: &dyn Builder, words: &Words, case: &Case) -> Answer {
    let Start::Text(text) = &case.start else {
        return Ok(());
    };
    let (mut ours, mut theirs) = ([7; 64], [7; 64]);
    let (left, right) = (builder.read(text, &mut ours), words.read(text, &mut theirs));
    let same = left == right && ours == theirs && builder.program(text) == words.program(text);
    if same {
        return Ok(());
    }
    Err(format!("{left:?} and {right:?} on {:?}", String::from_utf8_lossy(text)))
}

/// Seeded cases of every family: small ones against the words and by all assignments, large ones by what is known.
pub fn seeds(tally: &mut Tally, builder: &dyn Builder, first: u64, count: u64) {
    let words = &Words::default();
    for seed in first..first + count {
        for case in of_seed(seed).iter().filter(|case| case.size() < MIDDLING) {
            tally.case(case, |case| small_case(builder, words, case));
        }
        if seed.is_multiple_of(8) {
            for grown in [yards::planted(seed, 10, 40, 160), yards::planted(seed, 60, 200, 900)] {
                tally.count(&format!("planted, seed {seed}"), || yard(builder, &grown));
            }
        }
        if seed.is_multiple_of(64) {
            for grown in yards::yards(24 + (seed / 64 % 16) as usize * 2) {
                tally.count(&grown.case.family, || yard(builder, &grown));
            }
            tally.count(&format!("a full yard, seed {seed}"), || {
                yard(builder, &yards::planted(seed, 1_024, 4_096, 16_384))
            });
        }
    }
}

/// Tables with more entries than this take the words too long.
const MIDDLING: usize = 6_000;

/// What the small cases of some seeds hold, counted from their listings.
pub fn coverage(builder: &dyn Builder, first: u64, count: u64) -> String {
    let mut counts: BTreeMap<String, usize> = BTreeMap::new();
    let mut add = |name: &str, by: usize| *counts.entry(name.to_string()).or_default() += by;
    for case in (first..first + count).flat_map(|seed| of_seed(seed).into_iter().take(4)) {
        let Start::Table { n, table } = &case.start else {
            continue;
        };
        add("tables", 1);
        match Built::new(builder, *n, table, &Book::EMPTY).map(|built| built.shown) {
            Ok(Some(shown)) => {
                add("accepted", 1);
                add("fixed", shown.fixed.len());
                add("links", shown.links.len());
                add("with 3 rounds or more", usize::from(shown.rounds > 2));
                add("with 2 levels or more", usize::from(shown.gates.iter().any(|gate| gate.level > 1)));
                shown.gates.iter().for_each(|gate| add(&gate.kind, 1));
                shown.gates.iter().for_each(|gate| add(&format!("of {} inputs", gate.inputs.len()), 1));
            }
            Ok(None) => add("contradictions", 1),
            Err(_) => add("refused", 1),
        }
    }
    let counts: Vec<String> = counts.iter().map(|(name, count)| format!("{name} {count}")).collect();
    counts.join(", ")
}

/// Compares two builders on some cases. What was compared is counted by call.
pub fn against(a: &dyn Builder, b: &dyn Builder, cases: impl Iterator<Item = Case>) -> Tally {
    let mut tally = Tally::default();
    let mut slowest = (Duration::ZERO, String::new());
    for case in cases {
        let failed = tally.failed;
        let began = Instant::now();
        let found = RefCell::new(Counts::new());
        tally.case(&case, |case| {
            let counts = compare(a, b, case).map_err(|difference| difference.to_string())?;
            found.replace(counts);
            Ok(())
        });
        if tally.failed == failed {
            for (call, count) in found.take() {
                *tally.calls.entry(call).or_default() += count;
            }
        }
        if began.elapsed() > slowest.0 {
            slowest = (began.elapsed(), format!("{} seed {}", case.family, case.seed));
        }
    }
    println!("the slowest case: {}, {:.1} s", slowest.1, slowest.0.as_secs_f64());
    tally
}

/// The cases of a comparison: the fixed ones and those of some seeds.
pub fn cases(first: u64, count: u64) -> impl Iterator<Item = Case> {
    fixed().into_iter().chain((first..first + count).flat_map(of_seed))
}

/// What a comparison did not reach: the calls that one of the two has not. A call that both have and that was never
/// compared counts as failed.
pub fn told(tally: &mut Tally, a: &dyn Builder, b: &dyn Builder) {
    let shown: Vec<String> = tally.calls.iter().map(|(call, count)| format!("{} {count}", call.name())).collect();
    println!("calls of {} compared with {}: {}", a.name(), b.name(), shown.join(", "));
    for builder in [a, b] {
        let missing: Vec<&str> = Call::ALL.into_iter().filter(|call| !builder.has(*call)).map(Call::name).collect();
        if !missing.is_empty() {
            println!("not compared, since {} has no such call: {}", builder.name(), missing.join(", "));
        }
    }
    for call in Call::ALL.into_iter().filter(|call| a.has(*call) && b.has(*call)) {
        let count = tally.calls.get(&call).copied().unwrap_or(0);
        tally.count(&format!("the call {} was never compared", call.name()), || match count {
            0 => Err("no case made it".to_string()),
            _ => Ok(()),
        });
    }
}

/// A clause text from a file: all that can be known of it.
pub fn file(tally: &mut Tally, builder: &dyn Builder, name: &str, text: &[u8]) -> String {
    let words = &Words::default();
    let case = Case::of_text(name, 1, text.to_vec());
    let mut row = vec![0; 16_384];
    let read = builder.read(text, &mut row);
    row.truncate(read.second);
    let n = read.first as u32;
    tally.count(&format!("{name} against the words"), || {
        let mut case = case.clone();
        case.values.truncate(n as usize);
        against_words(builder, words, &case)
    });
    if !read.is_accepted() {
        return format!("X {} {}", read.number, read.place);
    }
    tally.count(&format!("{name}, the demands"), || {
        round_trip(builder, n, &row)?;
        let built = Built::new(builder, n, &row, &Book::EMPTY)?;
        built.some(&mut Random::new(7), 8)?;
        built.written_out(&words.settled(n, &row, &[]).unwrap_or_default())?;
        if n <= 10 {
            built.all()?;
        }
        Ok(())
    });
    let printed = builder.program(text);
    String::from_utf8_lossy(&printed).lines().next().unwrap_or("").replace('\t', " ")
}
