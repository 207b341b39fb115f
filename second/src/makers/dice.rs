//! Chance that is the same on every machine: a xorshift generator.

use crate::model::kind;

/// What chance starts from: a number, the newest kind of record that is drawn, and whether farm records of version 2 are, so that stored cases
/// stay what they are when a kind or a version is added.
#[derive(Clone, Copy)]
pub struct Seed {
    number: u64,
    newest: u8,
    factors: bool,
}

impl Seed {
    /// Without version 2.
    pub const fn up_to(newest: u8, number: u64) -> Seed {
        Seed { number, newest, factors: false }
    }

    pub const fn with_factors(newest: u8, number: u64) -> Seed {
        Seed { number, newest, factors: true }
    }
}

impl From<u64> for Seed {
    fn from(number: u64) -> Seed {
        Seed::with_factors(*kind::ALL.end(), number)
    }
}

pub struct Dice {
    state: u64,
    newest: u8,
    factors: bool,
}

impl Dice {
    /// The dice of one case, so that a case can be made again without those before it.
    pub fn of_case(seed: impl Into<Seed>, index: u64) -> Dice {
        let Seed { number, newest, factors } = seed.into();
        let mixed =
            number.wrapping_mul(0x9E37_79B9_7F4A_7C15) ^ index.wrapping_mul(0xD1B5_4A32_D192_ED03);
        let mut dice = Dice { state: mixed | 1, newest, factors };
        for _ in 0..8 {
            dice.roll();
        }
        dice
    }

    /// The newest kind of record that is drawn.
    pub fn newest(&self) -> u8 {
        self.newest
    }

    /// Whether records of this kind are drawn.
    pub fn knows(&self, kind: u8) -> bool {
        kind <= self.newest
    }

    /// Whether farm records of version 2 are drawn, and the factors that they bring into a state.
    pub fn knows_factors(&self) -> bool {
        self.factors
    }

    pub fn roll(&mut self) -> u64 {
        self.state ^= self.state << 13;
        self.state ^= self.state >> 7;
        self.state ^= self.state << 17;
        self.state.wrapping_mul(0x2545_F491_4F6C_DD1D)
    }

    /// A number below `n`, which is not zero.
    pub fn below(&mut self, n: u64) -> u64 {
        (self.roll() >> 11) % n
    }

    pub fn between(&mut self, low: u64, high: u64) -> u64 {
        low + self.below(high - low + 1)
    }

    /// Happens once in `n` times.
    pub fn one_in(&mut self, n: u64) -> bool {
        self.below(n) == 0
    }

    pub fn of<T: Copy>(&mut self, choices: &[T]) -> T {
        choices[self.below(choices.len() as u64) as usize]
    }

    /// A number of a range, its ends and their neighbours more often than chance would.
    pub fn edgy(&mut self, low: u64, high: u64) -> u64 {
        match self.below(9) {
            0 => low,
            1 => high,
            2 => low + u64::from(low < high),
            3 => high - u64::from(low < high),
            4 => self.between(low, high.min(low + 20)),
            5 => self.round_number(low, high),
            _ => self.between(low, high),
        }
    }

    /// A multiple of a divisor of some power of ten, where products with an exact half are common.
    fn round_number(&mut self, low: u64, high: u64) -> u64 {
        let step = self.of(&[5, 25, 50, 125, 250, 625]);
        let drawn = self.between(low, high) / step * step;
        drawn.max(low)
    }
}
