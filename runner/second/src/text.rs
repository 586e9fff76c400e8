//! Clause text, both ways: read into a lent row of entries, written to lent bytes.
//!
//! The reader goes through the text from its first byte and stops at the first fault that it meets; the faults of one
//! token are looked for in the order 1, 2, 3, and so "the earliest place decides; at one place 1 before 2 before 3".

use crate::numbers::{plain, room, Numbers, Step, CLAUSES, ENTRIES, FORM, RANGE, SIZE, TEXT, VARIABLES, WIDTH};
use crate::table::{clauses, sound};

/// Reads clause text into the lent row. Accepted, it returns n and the entries written.
pub fn read(text: &[u8], row: &mut [i32]) -> Numbers {
    let call = parse(text).and_then(|(n, entries)| {
        // "Last comes 8." The room of a reading is counted in entries.
        room(row.len(), entries.len())?;
        row[..entries.len()].copy_from_slice(&entries);
        Ok(Numbers::accepted(n as usize, entries.len()))
    });
    plain(call)
}

/// Reads clause text: n and the table's entries, or the refusal.
pub fn parse(text: &[u8]) -> Step<(u32, Vec<i32>)> {
    // "Text over 65,536 bytes is 2 at 65,536, before all else."
    if text.len() > TEXT {
        return Err(Numbers::refused(SIZE, TEXT));
    }
    let line = header_line(text)?;
    let end = line_end(text, line);
    let (n, count) = header(text, line, end)?;
    let entries = body(text, end, n, count)?;
    Ok((n, entries))
}

/// "Lines before the header start with byte `c` and are skipped to their LF. The header line starts with byte `p` ..
/// Any other first byte there is 1, also on an empty line; a text that ends before a header is 1 at its length."
fn header_line(text: &[u8]) -> Step<usize> {
    let mut line = 0;
    loop {
        match text.get(line) {
            Some(b'p') => return Ok(line),
            Some(b'c') => line = (line_end(text, line) + 1).min(text.len()),
            _ => return Err(Numbers::refused(FORM, line)),
        }
    }
}

/// The place of the LF that ends the line, or the text's length where there is none.
fn line_end(text: &[u8], from: usize) -> usize {
    text[from..].iter().position(|&byte| byte == b'\n').map_or(text.len(), |at| from + at)
}

/// "A token is a longest run of bytes other than space, tab, CR, LF." The next one in text[from..end] with the place of
/// its first byte: "A token's place is its first byte."
fn token(text: &[u8], from: usize, end: usize) -> Option<(usize, &[u8])> {
    let blank = |byte: &u8| matches!(byte, b' ' | b'\t' | b'\r' | b'\n');
    let start = from + text[from..end].iter().position(|byte| !blank(byte))?;
    let length = text[start..end].iter().position(blank).unwrap_or(end - start);
    Some((start, &text[start..start + length]))
}

/// "A number has 1 to 9 digits, no needless leading 0, and in a clause perhaps a leading `-`; `-0` is 1. V and C carry
/// no sign."
fn number(token: &[u8], in_clause: bool) -> Option<i32> {
    let (minus, digits) = match token {
        [b'-', rest @ ..] if in_clause => (true, rest),
        _ => (false, token),
    };
    if digits.is_empty() || digits.len() > 9 || !digits.iter().all(u8::is_ascii_digit) {
        return None;
    }
    if digits[0] == b'0' && (minus || digits.len() > 1) {
        return None;
    }
    let size = digits.iter().fold(0, |sum, digit| 10 * sum + i32::from(digit - b'0'));
    Some(if minus { -size } else { size })
}

/// "The header line .. holds exactly the tokens p, cnf, V, C; a missing token is 1 at the LF or the end, a surplus one
/// is 1." "Code 2: V or C too large". Returns V and C.
fn header(text: &[u8], line: usize, end: usize) -> Step<(u32, usize)> {
    let mut from = line;
    let mut next = || -> Step<(usize, &[u8])> {
        let (place, word) = token(text, from, end).ok_or(Numbers::refused(FORM, end))?;
        from = place + word.len();
        Ok((place, word))
    };
    for name in ["p", "cnf"] {
        let (place, word) = next()?;
        if word != name.as_bytes() {
            return Err(Numbers::refused(FORM, place));
        }
    }
    let mut sizes = [0; 2];
    for (size, most) in sizes.iter_mut().zip([VARIABLES as usize, CLAUSES]) {
        let (place, word) = next()?;
        let given = number(word, false).ok_or(Numbers::refused(FORM, place))?;
        *size = given as usize;
        if *size > most {
            return Err(Numbers::refused(SIZE, place));
        }
    }
    if let Some((place, _)) = token(text, from, end) {
        return Err(Numbers::refused(FORM, place));
    }
    Ok((sizes[0] as u32, sizes[1]))
}

/// "After the header every token is a number; a comment there is 1." "Code 2: .. a 65th literal, a 16,385th entry (every
/// number after the header counts). Code 3: a literal beyond V, any token after the C-th zero, or too few zeros or an
/// open clause, at the text's length." Where C is 0, no token may follow.
fn body(text: &[u8], from: usize, n: u32, count: usize) -> Step<Vec<i32>> {
    let mut entries = Vec::new();
    let mut zeros = 0;
    let mut literals = 0;
    let mut from = from;
    while let Some((place, word)) = token(text, from, text.len()) {
        from = place + word.len();
        let entry = number(word, true).ok_or(Numbers::refused(FORM, place))?;
        let wide = entry != 0 && literals == WIDTH;
        if wide || entries.len() == ENTRIES {
            return Err(Numbers::refused(SIZE, place));
        }
        if entry.unsigned_abs() > n || zeros == count {
            return Err(Numbers::refused(RANGE, place));
        }
        entries.push(entry);
        if entry == 0 {
            zeros += 1;
            literals = 0;
        } else {
            literals += 1;
        }
    }
    if zeros < count || literals > 0 {
        return Err(Numbers::refused(RANGE, text.len()));
    }
    Ok(entries)
}

/// Writes a table as clause text to the lent bytes. Accepted, it returns the bytes written.
/// "Writing text: 2, 3, 8."
pub fn write(n: u32, table: &[i32], bytes: &mut [u8]) -> Numbers {
    let call = sound(n, table).and_then(|()| {
        let written = written(n, table);
        room(bytes.len(), written.len())?;
        bytes[..written.len()].copy_from_slice(written.as_bytes());
        Ok(Numbers::accepted(written.len(), 0))
    });
    plain(call)
}

/// "Written text: `p cnf V C`, LF, then one clause a line, single spaces, ` 0` and LF; an empty clause is `0`."
fn written(n: u32, table: &[i32]) -> String {
    let mut written = format!("p cnf {n} {}\n", clauses(table).count());
    for clause in clauses(table) {
        for literal in clause {
            written.push_str(&literal.to_string());
            written.push(' ');
        }
        written.push_str("0\n");
    }
    written
}

#[cfg(test)]
mod tests {
    use super::*;

    #[test]
    fn forms_of_a_number() {
        for good in ["0", "1", "10", "999999999"] {
            assert_eq!(number(good.as_bytes(), false), good.parse().ok());
            assert_eq!(number(good.as_bytes(), true), good.parse().ok());
        }
        assert_eq!(number(b"-7", true), Some(-7));
        assert_eq!(number(b"-999999999", true), Some(-999_999_999));
        assert_eq!(number(b"-7", false), None);
        for bad in ["", "-", "-0", "00", "01", "-01", "--1", "+1", "1x", "1-", "1000000000", "0000000001"] {
            assert_eq!(number(bad.as_bytes(), true), None, "{bad}");
        }
    }

    #[test]
    fn only_four_blanks_part_tokens() {
        let text = b" \t\r\na\x0bb \x00";
        assert_eq!(token(text, 0, text.len()), Some((4, b"a\x0bb".as_slice())));
        assert_eq!(token(text, 7, text.len()), Some((8, b"\x00".as_slice())));
        assert_eq!(token(text, 9, text.len()), None);
    }

    #[test]
    fn written_lines() {
        let mut bytes = [0; 64];
        let numbers = write(2, &[1, -2, 0, 0], &mut bytes);
        assert_eq!(&bytes[..numbers.first], b"p cnf 2 2\n1 -2 0\n0\n");
    }
}
