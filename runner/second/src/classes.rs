//! Classes of literals that are equal, by union-find with signs.
//!
//! Each class has a seat, the variable under which the clauses write it while the rounds run, and a name, the literal
//! of its lowest variable, which is all that the result shows. The seat of the class with more clauses stays when two
//! are put together, so that few clauses are written anew however long a ladder of links is.

/// The sign of a literal.
fn sign(literal: i32) -> i32 {
    literal.signum()
}

pub struct Classes {
    /// For each variable the literal that it points to; a seat points to itself.
    points: Vec<i32>,
    /// For each seat the literal of the class's lowest variable that it equals.
    lowest: Vec<i32>,
    /// For each seat one more than the clauses that may have to be written anew if it goes.
    weight: Vec<usize>,
}

impl Classes {
    /// Each of the variables 1 to n in a class of its own.
    pub fn new(n: u32) -> Classes {
        let own: Vec<i32> = (0..=n as i32).collect();
        Classes { points: own.clone(), lowest: own, weight: vec![1; n as usize + 1] }
    }

    /// Counts a clause to a seat's weight.
    pub fn weigh(&mut self, seat: i32) {
        self.weight[seat as usize] += 1;
    }

    /// The seat's literal that a literal equals.
    pub fn seat(&self, literal: i32) -> i32 {
        let mut literal = literal;
        loop {
            let next = self.points[literal.unsigned_abs() as usize] * sign(literal);
            if next == literal {
                return literal;
            }
            literal = next;
        }
    }

    /// The literal of the class's lowest variable that a literal equals.
    pub fn name(&self, literal: i32) -> i32 {
        let seat = self.seat(literal);
        self.lowest[seat.unsigned_abs() as usize] * sign(seat)
    }

    /// Makes a equal to b. Returns the seat that went, 0 if the two were equal before, and None where "a literal equals
    /// its opposite".
    pub fn join(&mut self, a: i32, b: i32) -> Option<i32> {
        let (a, b) = (self.seat(a), self.seat(b));
        if a == b {
            return Some(0);
        }
        if a == -b {
            return None;
        }
        let (goes, stays) = match self.weight[a.unsigned_abs() as usize] <= self.weight[b.unsigned_abs() as usize] {
            true => (a, b),
            false => (b, a),
        };
        let (gone, seat) = (goes.unsigned_abs() as usize, stays.unsigned_abs() as usize);
        let turn = sign(goes) * sign(stays);
        self.points[gone] = turn * seat as i32;
        self.weight[seat] += self.weight[gone];
        if self.lowest[gone].unsigned_abs() < self.lowest[seat].unsigned_abs() {
            self.lowest[seat] = turn * self.lowest[gone];
        }
        Some(gone as i32)
    }
}

#[cfg(test)]
mod tests {
    use super::*;

    #[test]
    fn names_are_lowest_and_signs_run_through() {
        let mut classes = Classes::new(5);
        assert_ne!(classes.join(5, -4), None);
        assert_ne!(classes.join(-3, 5), None);
        assert_eq!(classes.name(5), -3);
        assert_eq!(classes.name(4), 3);
        assert_ne!(classes.join(2, -5), None);
        assert_eq!([2, 3, 4, 5].map(|v| classes.name(v)), [2, 2, 2, -2]);
        assert_eq!(classes.join(4, 3), Some(0));
        assert_eq!(classes.join(4, -3), None);
        assert_eq!(classes.name(-1), -1);
    }
}
