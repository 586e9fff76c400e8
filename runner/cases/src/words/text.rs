//! Clause text and the faults of entries, as words: the text is parted into lines and tokens, every fault is gathered
//! with its place, and the earliest one is the answer, the lowest number first at one place.

use crate::builder::Numbers;

/// A fault: its place, then its number.
pub type Fault = (usize, u32);

/// "the earliest place decides; at one place 1 before 2 before 3".
pub fn earliest(faults: Vec<Fault>) -> Option<Numbers> {
    let (place, number) = faults.into_iter().min()?;
    Some(Numbers { number, place, first: 0, second: 0 })
}

/// The faults of a lent table's entries: those of any entries, and the 4,097th zero.
pub fn table_faults(n: u32, table: &[i32]) -> Vec<Fault> {
    let mut faults = entry_faults(n, table);
    faults.extend(zeros(table).nth(4_096).map(|place| (place, 2)));
    faults
}

/// The faults of entries, lent or read: literals beyond n, 65th literals, the unfinished clause.
fn entry_faults(n: u32, table: &[i32]) -> Vec<Fault> {
    let mut faults = Vec::new();
    for (place, &entry) in table.iter().enumerate() {
        let before = &table[..place];
        let literals = before.iter().rev().take_while(|earlier| **earlier != 0).take(64).count();
        if entry != 0 && literals == 64 {
            faults.push((place, 2));
        }
        if i64::from(entry).abs() > i64::from(n) {
            faults.push((place, 3));
        }
    }
    if table.last().is_some_and(|last| *last != 0) {
        faults.push((table.len(), 3));
    }
    faults
}

fn zeros(table: &[i32]) -> impl Iterator<Item = usize> + '_ {
    (0..table.len()).filter(|&place| table[place] == 0)
}

/// A token with the place of its first byte.
type Token = (usize, String);

/// The tokens of a line that starts at the place given. Bytes that are no text become signs that no rule knows.
fn tokens(start: usize, line: &[u8]) -> Vec<Token> {
    let mut tokens: Vec<Token> = Vec::new();
    let mut open = false;
    for (offset, &byte) in line.iter().enumerate() {
        let blank = byte == 32 || byte == 9 || byte == 13;
        if !blank && !open {
            tokens.push((start + offset, String::new()));
        }
        if !blank {
            tokens.last_mut().expect("a token is open").1.push(char::from(byte));
        }
        open = !blank;
    }
    tokens
}

/// A number is what comes out again when it is read and printed, with at most nine digits.
fn number(token: &str) -> Option<i32> {
    let value: i32 = token.parse().ok()?;
    (value.to_string() == token && value.unsigned_abs() <= 999_999_999).then_some(value)
}

/// The lines of a text, each with the place where it starts. Behind a last LF stands one more, empty line.
fn lines(text: &[u8]) -> Vec<(usize, &[u8])> {
    let mut start = 0;
    let mut lines = Vec::new();
    for line in text.split(|byte| *byte == b'\n') {
        lines.push((start, line));
        start += line.len() + 1;
    }
    lines
}

/// n and the entries of clause text, or the refusal.
pub fn read(text: &[u8]) -> Result<(u32, Vec<i32>), Numbers> {
    if text.len() > 65_536 {
        return Err(Numbers { number: 2, place: 65_536, first: 0, second: 0 });
    }
    let mut faults: Vec<Fault> = Vec::new();
    let lines = lines(text);
    let remarks = lines.iter().take_while(|(_, line)| line.first() == Some(&b'c')).count();
    let Some(&(start, header)) = lines.get(remarks) else {
        // The last line is a remark without LF.
        return Err(Numbers { number: 1, place: text.len(), first: 0, second: 0 });
    };
    if header.first() != Some(&b'p') {
        faults.push((start, 1));
    }
    let words = tokens(start, header);
    let mut sizes = [0, 0];
    for (at, (place, word)) in words.iter().enumerate() {
        let most = [0, 0, 1_024, 4_096].get(at).copied().unwrap_or(0);
        match (at, number(word)) {
            (0, _) if word == "p" => {}
            (1, _) if word == "cnf" => {}
            (2 | 3, Some(size)) if (0..=most).contains(&size) => sizes[at - 2] = size,
            (2 | 3, Some(size)) if size > most => faults.push((*place, 2)),
            _ => faults.push((*place, 1)),
        }
    }
    if words.len() < 4 {
        faults.push((start + header.len(), 1));
    }
    let [n, count] = sizes;
    let body: Vec<Token> = lines[remarks + 1..].iter().flat_map(|(start, line)| tokens(*start, line)).collect();
    let mut entries = Vec::new();
    for (place, word) in &body {
        match number(word) {
            None => faults.push((*place, 1)),
            Some(entry) => {
                if zeros(&entries).count() >= count as usize {
                    faults.push((*place, 3));
                }
                entries.push(entry);
            }
        }
        // What comes behind a fault can't come before it.
        if !faults.is_empty() {
            break;
        }
    }
    // The table's own faults, seen as places of tokens.
    let place = |at: usize| body.get(at).map_or(text.len(), |(place, _)| *place);
    faults.extend(entry_faults(n as u32, &entries).into_iter().map(|(at, number)| (place(at), number)));
    if entries.len() > 16_384 {
        faults.push((place(16_384), 2));
    }
    if zeros(&entries).count() < count as usize {
        faults.push((text.len(), 3));
    }
    match earliest(faults) {
        Some(numbers) => Err(numbers),
        None => Ok((n as u32, entries)),
    }
}
