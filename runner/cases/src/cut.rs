//! The cutter: it makes a failing case smaller as long as it still fails, by dropping clauses, literals, variables,
//! moves, held pins, values and bytes.

use crate::case::{Case, Move, Start};

/// The smallest case found that still fails.
pub fn cut(case: &Case, fails: &dyn Fn(&Case) -> bool) -> Case {
    let mut best = case.clone();
    loop {
        let before = weight(&best);
        drop_moves(&mut best, fails);
        drop_book(&mut best, fails);
        match best.start {
            Start::Text(_) => drop_bytes(&mut best, fails),
            Start::Table { .. } => {
                drop_clauses(&mut best, fails);
                drop_literals(&mut best, fails);
                drop_variables(&mut best, fails);
                plain_values(&mut best, fails);
            }
        }
        if weight(&best) >= before {
            return best;
        }
    }
}

fn weight(case: &Case) -> usize {
    let n = if let Start::Table { n, .. } = &case.start { *n as usize } else { 0 };
    let values = case.values.iter().filter(|value| **value != 0).count();
    case.size() + n + case.moves.len() + case.book.length.min(65) + values
}

/// Keeps a smaller case if it fails as well.
fn keep(best: &mut Case, smaller: Case, fails: &dyn Fn(&Case) -> bool) -> bool {
    let kept = fails(&smaller);
    if kept {
        *best = smaller;
    }
    kept
}

/// Drops stretches of a row, long ones first, as long as what is left fails.
fn drop_stretches<T: Clone>(row: Vec<T>, mut still: impl FnMut(Vec<T>) -> bool) {
    let mut row = row;
    let mut length = row.len().next_power_of_two();
    while length > 0 {
        let mut from = 0;
        while from < row.len() {
            let end = (from + length).min(row.len());
            let left = [&row[..from], &row[end..]].concat();
            if still(left.clone()) {
                row = left;
            } else {
                from = end;
            }
        }
        length /= 2;
    }
}

fn drop_moves(best: &mut Case, fails: &dyn Fn(&Case) -> bool) {
    let moves: Vec<Move> = best.moves.clone();
    drop_stretches(moves, |moves| {
        let smaller = Case { moves, ..best.clone() };
        keep(best, smaller, fails)
    });
}

fn drop_book(best: &mut Case, fails: &dyn Fn(&Case) -> bool) {
    while (1..=64).contains(&best.book.length) {
        let mut smaller = best.clone();
        smaller.book.length -= 1;
        smaller.book.pins[smaller.book.length] = 0;
        if !keep(best, smaller, fails) {
            return;
        }
    }
}

fn drop_bytes(best: &mut Case, fails: &dyn Fn(&Case) -> bool) {
    let Start::Text(text) = best.start.clone() else {
        return;
    };
    drop_stretches(text, |text| {
        let smaller = Case { start: Start::Text(text), ..best.clone() };
        keep(best, smaller, fails)
    });
}

fn with_table(case: &Case, n: u32, table: Vec<i32>) -> Case {
    Case { start: Start::Table { n, table }, ..case.clone() }
}

fn drop_clauses(best: &mut Case, fails: &dyn Fn(&Case) -> bool) {
    let Start::Table { n, table } = best.start.clone() else {
        return;
    };
    let clauses: Vec<Vec<i32>> = table.split_inclusive(|&entry| entry == 0).map(<[i32]>::to_vec).collect();
    drop_stretches(clauses, |clauses| {
        let smaller = with_table(best, n, clauses.concat());
        keep(best, smaller, fails)
    });
}

fn drop_literals(best: &mut Case, fails: &dyn Fn(&Case) -> bool) {
    let mut place = 0;
    loop {
        let Start::Table { n, table } = best.start.clone() else {
            return;
        };
        match table.get(place) {
            None => return,
            Some(0) => place += 1,
            Some(_) => {
                let left = [&table[..place], &table[place + 1..]].concat();
                let smaller = with_table(best, n, left);
                if !keep(best, smaller, fails) {
                    place += 1;
                }
            }
        }
    }
}

/// Drops each variable with its literals; those above move down by one, in the pins and values as well.
fn drop_variables(best: &mut Case, fails: &dyn Fn(&Case) -> bool) {
    let mut variable = 1;
    loop {
        let Start::Table { n, table } = best.start.clone() else {
            return;
        };
        if variable > n || n > 5_000 {
            return;
        }
        let down = |literal: i32| match literal.unsigned_abs() {
            size if size > variable && literal != i32::MIN => literal - literal.signum(),
            _ => literal,
        };
        let table = table.iter().copied().filter(|entry| entry.unsigned_abs() != variable).map(down).collect();
        let mut smaller = with_table(best, n - 1, table);
        let held = |step: &Move| !matches!(step, Move::Pin(pin) if pin.unsigned_abs() == variable);
        smaller.moves.retain(held);
        for step in &mut smaller.moves {
            if let Move::Pin(pin) = step {
                *pin = down(*pin);
            }
        }
        for pin in &mut smaller.book.pins {
            *pin = down(*pin);
        }
        if smaller.values.len() >= variable as usize {
            smaller.values.remove(variable as usize - 1);
        }
        if !keep(best, smaller, fails) {
            variable += 1;
        }
    }
}

fn plain_values(best: &mut Case, fails: &dyn Fn(&Case) -> bool) {
    for place in 0..best.values.len() {
        if best.values[place] != 0 {
            let mut smaller = best.clone();
            smaller.values[place] = 0;
            keep(best, smaller, fails);
        }
    }
}
