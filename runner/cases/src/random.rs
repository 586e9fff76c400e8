//! A small generator of numbers that run on from a seed the same way everywhere (splitmix64).

pub struct Random(u64);

impl Random {
    pub fn new(seed: u64) -> Random {
        Random(seed)
    }

    pub fn number(&mut self) -> u64 {
        self.0 = self.0.wrapping_add(0x9e37_79b9_7f4a_7c15);
        let mut z = self.0;
        z = (z ^ (z >> 30)).wrapping_mul(0xbf58_476d_1ce4_e5b9);
        z = (z ^ (z >> 27)).wrapping_mul(0x94d0_49bb_1331_11eb);
        z ^ (z >> 31)
    }

    /// A number below `end`, which is 1 or more.
    pub fn below(&mut self, end: usize) -> usize {
        (self.number() % end as u64) as usize
    }

    /// A number from `least` to `most`, both included.
    pub fn within(&mut self, least: usize, most: usize) -> usize {
        least + self.below(most - least + 1)
    }

    /// True `percent` times out of a hundred.
    pub fn chance(&mut self, percent: usize) -> bool {
        self.below(100) < percent
    }

    pub fn pick<'a, T>(&mut self, from: &'a [T]) -> &'a T {
        &from[self.below(from.len())]
    }

    pub fn shuffle<T>(&mut self, row: &mut [T]) {
        for last in (1..row.len()).rev() {
            row.swap(last, self.below(last + 1));
        }
    }

    /// The literal of a variable with either sign.
    pub fn sign(&mut self, variable: i32) -> i32 {
        if self.chance(50) {
            -variable
        } else {
            variable
        }
    }

    /// So many different variables out of 1 to n.
    pub fn variables(&mut self, n: usize, count: usize) -> Vec<i32> {
        let mut all: Vec<i32> = (1..=n as i32).collect();
        for place in 0..count.min(n) {
            let other = self.within(place, n - 1);
            all.swap(place, other);
        }
        all.truncate(count);
        all
    }
}
