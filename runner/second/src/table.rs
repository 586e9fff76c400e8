//! The lent table: its check, and the look-up of one clause.
//!
//! "A table is a row of signed 32-bit entries; 0 ends each clause."

use crate::numbers::{plain, Numbers, Step, CLAUSES, ENTRIES, RANGE, SIZE, VARIABLES, WIDTH};

/// Checks a table: 0, or 2 or 3 with the place.
pub fn check(n: u32, table: &[i32]) -> Numbers {
    plain(sound(n, table).map(|()| Numbers::accepted(0, 0)))
}

/// "Table check: n above 1,024 is 2 at place 0; more than 16,384 entries is 2 at 16,384; then the earliest bad entry.
/// At one entry 2 (a 65th literal, a 4,097th zero) goes before 3. An unfinished clause is 3 at the table's length."
pub fn sound(n: u32, table: &[i32]) -> Step<()> {
    if n > VARIABLES {
        return Err(Numbers::refused(SIZE, 0));
    }
    if table.len() > ENTRIES {
        return Err(Numbers::refused(SIZE, ENTRIES));
    }
    let mut zeros = 0;
    let mut literals = 0;
    for (place, &entry) in table.iter().enumerate() {
        if entry == 0 {
            zeros += 1;
            literals = 0;
        } else {
            literals += 1;
        }
        if zeros > CLAUSES || literals > WIDTH {
            return Err(Numbers::refused(SIZE, place));
        }
        if entry.unsigned_abs() > n {
            return Err(Numbers::refused(RANGE, place));
        }
    }
    if literals > 0 {
        return Err(Numbers::refused(RANGE, table.len()));
    }
    Ok(())
}

/// The clauses of a sound table in order, each without its ending zero.
pub fn clauses(table: &[i32]) -> impl Iterator<Item = &[i32]> {
    table.split_inclusive(|&entry| entry == 0).map(|stretch| &stretch[..stretch.len() - 1])
}

/// "Asked for clause number k, from 0, the look-up returns that stretch itself with its ending zero; for no such clause
/// or a table that 2 or 3 refuses, the empty stretch at the table's end."
pub fn clause(n: u32, table: &[i32], k: usize) -> &[i32] {
    let none = &table[table.len()..];
    if sound(n, table).is_err() {
        return none;
    }
    table.split_inclusive(|&entry| entry == 0).nth(k).unwrap_or(none)
}

#[cfg(test)]
mod tests {
    use super::*;

    fn place(n: u32, table: &[i32]) -> (u32, usize) {
        let numbers = check(n, table);
        (numbers.number, numbers.place)
    }

    #[test]
    fn sizes_one_past_each() {
        assert_eq!(place(1_024, &[0; 4_096]), (0, 0));
        assert_eq!(place(1_024, &[0; 4_097]), (2, 4_096));
        assert_eq!(place(1_025, &[2_000; 20_000]), (2, 0));
        assert_eq!(place(0, &[0; 16_385]), (2, 16_384));
        let mut wide = vec![1; 64];
        wide.push(0);
        assert_eq!(place(1, &wide), (0, 0));
        wide.insert(0, 1);
        assert_eq!(place(1, &wide), (2, 64));
    }

    #[test]
    fn two_goes_before_three_at_one_entry() {
        assert_eq!(place(1, &[[1; 64].as_slice(), &[2, 0]].concat()), (2, 64));
        assert_eq!(place(1, &[[1; 63].as_slice(), &[2, 0]].concat()), (3, 63));
    }

    #[test]
    fn range_and_end() {
        assert_eq!(place(1, &[1, 0, 2]), (3, 2));
        assert_eq!(place(1, &[1, 0, 1]), (3, 3));
        assert_eq!(place(1_024, &[i32::MIN, 0]), (3, 0));
        assert_eq!(place(0, &[]), (0, 0));
    }

    #[test]
    fn look_up_gives_the_stretch_itself() {
        let table = [1, -2, 0, 0, 2, 0];
        assert_eq!(clause(2, &table, 0).as_ptr_range(), table[0..3].as_ptr_range());
        assert_eq!(clause(2, &table, 1).as_ptr_range(), table[3..4].as_ptr_range());
        assert_eq!(clause(2, &table, 2).as_ptr_range(), table[4..6].as_ptr_range());
        assert_eq!(clause(2, &table, 3).as_ptr_range(), table[6..6].as_ptr_range());
        assert_eq!(clause(1, &table, 0).as_ptr_range(), table[6..6].as_ptr_range());
    }
}
