//! Random numbers that a seed decides: splitmix64.

/// A source of random numbers.
#[derive(Clone, Debug)]
pub struct Random {
    state: u64,
}

impl Random {
    pub fn new(seed: u64) -> Self {
        Random { state: seed }
    }

    pub fn bits(&mut self) -> u64 {
        self.state = self.state.wrapping_add(0x9E37_79B9_7F4A_7C15);
        let mut mixed = self.state;
        mixed = (mixed ^ (mixed >> 30)).wrapping_mul(0xBF58_476D_1CE4_E5B9);
        mixed = (mixed ^ (mixed >> 27)).wrapping_mul(0x94D0_49BB_1331_11EB);
        mixed ^ (mixed >> 31)
    }

    /// A number from `low` to `high`, both included.
    pub fn range(&mut self, low: i64, high: i64) -> i64 {
        assert!(low <= high);
        let count = high.wrapping_sub(low) as u64;
        let offset = match count.checked_add(1) {
            Some(count) => ((u128::from(self.bits()) * u128::from(count)) >> 64) as u64,
            None => self.bits(),
        };
        low.wrapping_add(offset as i64)
    }

    /// A number below `count`, which isn't zero.
    pub fn below(&mut self, count: usize) -> usize {
        self.range(0, count as i64 - 1) as usize
    }

    /// True in so many cases of a hundred.
    pub fn percent(&mut self, percentage: i64) -> bool {
        self.range(0, 99) < percentage
    }

    /// One of the choices.
    pub fn choose<T: Copy>(&mut self, choices: &[T]) -> T {
        choices[self.below(choices.len())]
    }

    /// A number of any size: small ones and ends of ranges are as likely as
    /// large ones.
    pub fn any_i64(&mut self) -> i64 {
        match self.below(4) {
            0 => self.range(-20, 20),
            1 => self.choose(&[i64::MIN, i64::MAX, i64::from(i32::MIN), i64::from(i32::MAX)]),
            2 => self.bits() as i64,
            _ => (self.bits() as i64) >> self.below(64),
        }
    }

    /// As [`Random::any_i64`], of 32 bits.
    pub fn any_i32(&mut self) -> i32 {
        match self.below(3) {
            0 => self.range(-20, 20) as i32,
            1 => self.choose(&[
                i32::MIN,
                i32::MAX,
                i32::MIN + 1,
                1_000_000_001,
                -1_000_000_001,
            ]),
            _ => self.bits() as i32,
        }
    }
}

#[cfg(test)]
mod tests {
    use super::*;

    #[test]
    fn the_published_sequence() {
        let mut random = Random::new(1_234_567);
        assert_eq!(random.bits(), 6_457_827_717_110_365_317);
        assert_eq!(random.bits(), 3_203_168_211_198_807_973);
    }

    #[test]
    fn ranges_hold() {
        let mut random = Random::new(1);
        for _ in 0..1000 {
            assert!((-3..=3).contains(&random.range(-3, 3)));
        }
        random.range(i64::MIN, i64::MAX);
        assert_eq!(random.range(i64::MAX, i64::MAX), i64::MAX);
    }
}
