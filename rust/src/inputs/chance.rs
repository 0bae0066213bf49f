//! Numbers by chance, the same in every run and on every machine.

/// A small generator (SplitMix64): the same numbers in every run.
pub struct Chance(pub u64);

impl Chance {
    pub fn draw(&mut self) -> u64 {
        self.0 = self.0.wrapping_add(0x9E37_79B9_7F4A_7C15);
        let mut mixed = self.0;
        mixed = (mixed ^ (mixed >> 30)).wrapping_mul(0xBF58_476D_1CE4_E5B9);
        mixed = (mixed ^ (mixed >> 27)).wrapping_mul(0x94D0_49BB_1331_11EB);
        mixed ^ (mixed >> 31)
    }

    /// A whole number of a range, both ends included.
    pub fn between(&mut self, least: i64, greatest: i64) -> i64 {
        let width = (greatest - least + 1) as u64;
        least + (self.draw() % width) as i64
    }

    /// A number of the range: one of its ends, a small one, or any.
    pub fn within(&mut self, (least, greatest): (i64, i64)) -> i64 {
        match self.draw() % 8 {
            0 => least,
            1 => greatest,
            2..=4 => self.between(least.max(-70), greatest.min(70)),
            _ => self.between(least, greatest),
        }
    }

    pub fn one_of<T: Copy>(&mut self, choices: &[T]) -> T {
        choices[(self.draw() % choices.len() as u64) as usize]
    }

    /// At least 0, below 1.
    pub fn fraction(&mut self) -> f64 {
        (self.draw() >> 11) as f64 / (1_u64 << 53) as f64
    }

    /// Very nearly normal, with mean 0 and variance 1: twelve fractions less their mean. Unlike a logarithm and a cosine, sums are
    /// the same on every machine.
    pub fn normal(&mut self) -> f64 {
        (0..12).map(|_| self.fraction()).sum::<f64>() - 6.0
    }
}
