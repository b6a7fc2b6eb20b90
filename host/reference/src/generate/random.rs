//! A small generator of random numbers (splitmix64), so that a seed means the same files everywhere.

use crate::model::events::DAY;
use crate::model::YEAR;
use crate::write::{Nature, Number};

pub struct Random(u64);

impl Random {
    /// Streams of different ordinals don't depend on each other.
    pub fn new(seed: u64, ordinal: u64) -> Random {
        let mut random = Random(seed);
        let start = random.next() ^ ordinal.wrapping_mul(0xD6E8_FEB8_6659_FD93);
        let mut random = Random(start);
        random.next();
        random
    }

    pub fn next(&mut self) -> u64 {
        self.0 = self.0.wrapping_add(0x9E37_79B9_7F4A_7C15);
        let mut z = self.0;
        z = (z ^ (z >> 30)).wrapping_mul(0xBF58_476D_1CE4_E5B9);
        z = (z ^ (z >> 27)).wrapping_mul(0x94D0_49BB_1331_11EB);
        z ^ (z >> 31)
    }

    pub fn below(&mut self, limit: u64) -> u64 {
        self.next() % limit
    }

    pub fn byte(&mut self) -> u8 {
        self.next() as u8
    }

    pub fn pick<T: Copy>(&mut self, choices: &[T]) -> T {
        choices[self.below(choices.len() as u64) as usize]
    }

    /// A number in range, of either nature: one digit, fifteen, or any count; the least and the greatest value, or any.
    pub fn number(&mut self) -> Number {
        let nature = self.pick(&Nature::ALL);
        let count = match self.below(6) {
            0 => 1,
            1 => 15,
            _ => 1 + self.below(15) as u8,
        };
        let limit = 10_u64.pow(u32::from(count));
        let value = match self.below(8) {
            0 => 0,
            1 => 1,
            2 => limit - 1,
            3 => self.below(limit.min(1000)),
            _ => self.below(limit),
        };
        Number { nature, count, value }
    }

    /// Seconds of a time event, mostly in range.
    pub fn seconds(&mut self) -> u32 {
        match self.below(16) {
            0..=1 => 0,
            2..=3 => 1,
            4 => 60,
            5 => DAY - 1,
            6..=7 => DAY,
            8 => self.pick(&[DAY + 1, DAY * 2, 1 << 24, u32::MAX]),
            9..=11 => self.below(u64::from(DAY) + 1) as u32,
            _ => self.below(600) as u32,
        }
    }

    /// A Duration, often near the greatest that a row may use.
    pub fn duration(&mut self) -> u32 {
        match self.below(10) {
            0 => self.pick(&[0, 1]),
            1..=2 => self.pick(&[YEAR + 1, YEAR + DAY, 1 << 31, u32::MAX]),
            3..=4 => self.pick(&[YEAR, YEAR - 1, YEAR - DAY, YEAR - DAY + 1]),
            5..=6 => self.below(u64::from(YEAR) + 1) as u32,
            _ => self.below(5000) as u32,
        }
    }

    /// A cause in range.
    pub fn cause(&mut self) -> u8 {
        match self.below(3) {
            0 => self.pick(&[0, 1, 16, 29, 102, 126, 127]),
            _ => self.below(128) as u8,
        }
    }

    /// An error number: all are in range, 4 to 12 are valid.
    pub fn error(&mut self) -> u8 {
        match self.below(8) {
            0..=3 => 4 + self.below(9) as u8,
            4..=6 => self.pick(&[0, 1, 2, 3, 4, 12, 13, 127, 128, 255]),
            _ => self.byte(),
        }
    }
}

#[cfg(test)]
mod tests {
    use super::*;

    /// The first values of splitmix64 from 0.
    #[test]
    fn known_values() {
        let mut random = Random(0);
        assert_eq!(random.next(), 0xE220_A839_7B1D_CDAF);
        assert_eq!(random.next(), 0x6E78_9E6A_A1B9_65F4);
    }

    #[test]
    fn numbers_are_in_range() {
        let mut random = Random::new(1, 1);
        for _ in 0..2000 {
            let number = random.number();
            assert!((1..=15).contains(&number.count) && number.value < 10_u64.pow(u32::from(number.count)));
        }
    }
}
