//! Clause texts, good and damaged: cut, spoiled, doubled, shuffled, put together at random, and at the sizes.

use crate::case::{text_of, Case, Start};
use crate::random::Random;
use crate::small::small;

/// A small valid text with remarks, odd blanks and several signs; every cut and every spoiled byte of it is tried.
pub const VALID: &str = "c a remark\nc\np cnf 12 4\n1 -2 0\n\t-12  3 1\r\n0 0\n10 -11 0\n";

/// Each shorter front of a text.
pub fn cuts(text: &[u8]) -> impl Iterator<Item = Vec<u8>> + '_ {
    (0..text.len()).map(|length| text[..length].to_vec())
}

/// The text with one byte replaced by every other one.
pub fn spoiled(text: &[u8], place: usize) -> impl Iterator<Item = Vec<u8>> + '_ {
    (0..=u8::MAX).filter(move |byte| *byte != text[place]).map(move |byte| {
        let mut text = text.to_vec();
        text[place] = byte;
        text
    })
}

/// The text of a small table, damaged in one to three ways, or left as it is.
pub fn damaged(seed: u64) -> Case {
    let random = &mut Random::new(seed ^ 0x7e47);
    let case = small(seed, 9);
    let Start::Table { n, table } = &case.start else {
        return case;
    };
    let mut text = text_of(*n, table).into_bytes();
    if random.chance(30) {
        text = [b"c road 4\n".as_slice(), &text].concat();
    }
    for _ in 0..random.below(4) {
        damage(random, &mut text);
    }
    let mut damaged = Case::of_text("damaged", seed, text);
    damaged.values = case.values;
    damaged.moves = case.moves;
    damaged
}

/// A text damaged in one or two ways.
pub fn damaged_text(seed: u64, text: Vec<u8>) -> Case {
    let random = &mut Random::new(seed ^ 0x7e48);
    let mut text = text;
    for _ in 0..random.within(1, 2) {
        damage(random, &mut text);
    }
    Case::of_text("a damaged full text", seed, text)
}

fn damage(random: &mut Random, text: &mut Vec<u8>) {
    if text.is_empty() {
        return;
    }
    let place = random.below(text.len());
    let end = random.within(place, text.len().min(place + 12));
    match random.below(9) {
        0 => text.truncate(place),
        1 => text[place] = *random.pick(b"0123456789- \t\r\nxpc\x00\xff"),
        2 => text.insert(place, *random.pick(b"0123456789- \t\r\nxpc\x00\xff")),
        3 => drop(text.drain(place..end)),
        4 => {
            let twice = text[place..end].to_vec();
            text.splice(place..place, twice);
        }
        5 => random.shuffle(&mut text[place..end]),
        6 => {
            // Tokens of the text in another order.
            let mut words: Vec<Vec<u8>> = text.split(|byte| *byte == b' ').map(<[u8]>::to_vec).collect();
            let (one, other) = (random.below(words.len()), random.below(words.len()));
            words.swap(one, other);
            *text = words.join(&b' ');
        }
        7 => text.insert(place, b'\n'),
        _ => {
            let mut lines: Vec<Vec<u8>> = text.split(|byte| *byte == b'\n').map(<[u8]>::to_vec).collect();
            let (one, other) = (random.below(lines.len()), random.below(lines.len()));
            lines.swap(one, other);
            *text = lines.join(&b'\n');
        }
    }
}

/// Tokens and blanks put together at random, mostly behind a good header.
pub fn thrown(seed: u64) -> Case {
    let random = &mut Random::new(seed ^ 0x7402);
    let mut text = Vec::new();
    for _ in 0..random.below(3) {
        text.extend(random.pick(&["c\n", "c p cnf 1 1\n", "cc", "c\r\n", "c\x00 x\n"]).bytes());
    }
    if random.chance(80) {
        let header = ["p cnf 3 2\n", "p cnf 1 1\n", "p\tcnf \r2 3 \n", "p cnf 0 0\n", "p cnf 1024 4096\n", "p cnf 4 1"];
        text.extend(random.pick(&header).bytes());
    }
    let words = [
        "0",
        "0",
        "0",
        "1",
        "-1",
        "2",
        "-2",
        "3",
        "-3",
        "-0",
        "00",
        "01",
        "4",
        "1025",
        "999999999",
        "1000000000",
        "+1",
        "--1",
        "1-",
        "p",
        "cnf",
        "c",
        "x",
        "\x0b",
        "-",
        "1.0",
        "-1024",
        "2147483648",
    ];
    let good = random.chance(60);
    for _ in 0..random.below(14) {
        let word = if good { words[random.below(9)] } else { *random.pick(&words) };
        text.extend(word.bytes());
        text.extend(random.pick(&[" ", " ", " ", "\n", "\t", "\r\n", "  ", " \n\n", ""]).bytes());
    }
    Case::of_text("thrown", seed, text)
}

/// Texts at the sizes and one past each, with the number and place of the reading: 0 stands for accepted.
pub fn sizes() -> Vec<(&'static str, Vec<u8>, u32, usize)> {
    let with = |head: &str, part: &str, times: usize| [head, &part.repeat(times)].concat().into_bytes();
    let padded = |length: usize| {
        let mut text = b"p cnf 1 1\n1 0".to_vec();
        text.resize(length, b' ');
        text
    };
    let remark = |length: usize| [vec![b'c'; length - 14], b"\np cnf 1 1\n1 0".to_vec()].concat();
    let row = "1 ".repeat(63) + "0\n";
    vec![
        ("65,536 bytes", padded(65_536), 0, 0),
        ("65,537 bytes", padded(65_537), 2, 65_536),
        ("a long remark", remark(65_536), 0, 0),
        ("a longer remark", remark(65_537), 2, 65_536),
        ("V 1,024", with("p cnf 1024 1\n-1024 0\n", "", 0), 0, 0),
        ("V 1,025", with("p cnf 1025 1\n-1024 0\n", "", 0), 2, 6),
        ("C 4,096", with("p cnf 1 4096\n", "0\n", 4_096), 0, 0),
        ("C 4,097", with("p cnf 1 4097\n", "0\n", 4_097), 2, 8),
        ("a 4,097th zero", with("p cnf 1 4096\n", "0\n", 4_097), 3, 13 + 2 * 4_096),
        ("16,384 entries", with("p cnf 1 256\n", &row, 256), 0, 0),
        ("a 16,385th entry", with("p cnf 1 256\n", &row, 257), 2, 12 + 128 * 256),
        ("a 16,385th entry within", with("p cnf 1 4096\n", "1 1 1 1 0 ", 4_096), 2, 13 + 2 * 16_384),
        ("64 literals", with("p cnf 1 1\n", "1 ", 64).into_iter().chain(*b"0").collect(), 0, 0),
        ("a 65th literal", with("p cnf 1 1\n", "1 ", 65).into_iter().chain(*b"0").collect(), 2, 10 + 128),
    ]
}

/// A text within the size whose listing is not: the build program answers X with 8.
pub fn long_listing() -> Vec<u8> {
    let clause = |k: usize| format!("-{} -{} -{} 0\n", 100 + k % 300, 400 + k % 310, 710 + k % 307);
    let clauses: String = (0..3_800).map(clause).collect();
    format!("p cnf 1024 3800\n{clauses}").into_bytes()
}
