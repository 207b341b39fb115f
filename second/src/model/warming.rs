//! Document 02, W11: the warming factors of CH4 and N2O, by the set of a farm record of version 1, or as one of version 2 names them.

use crate::model::figures::{positive, Figures};
use std::ops::RangeInclusive;

/// What a gram of CH4 and one of N2O count in grams of CO2.
#[derive(Clone, Copy, Debug, Default, PartialEq, Eq)]
pub struct Factors {
    pub ch4: u16,
    pub n2o: u16,
}

pub const fn factors(ch4: u16, n2o: u16) -> Factors {
    Factors { ch4, n2o }
}

/// Those of a state that has no records.
pub const NONE: Factors = factors(0, 0);

/// The sets of document 01: source document 000's, and 002's.
pub const SET_1: Factors = factors(21, 310);
pub const SET_2: Factors = factors(23, 296);

const RANGE: RangeInclusive<u16> = 1..=1_000;

impl Factors {
    /// Those that a farm record's values give: farm number and year, then a set or two factors.
    pub fn of_farm(values: &[u128]) -> Factors {
        match *values {
            [_, _, 1] => SET_1,
            [_, _, 2] => SET_2,
            [_, _, ch4, n2o] => factors(ch4 as u16, n2o as u16),
            _ => panic!("{values:?} are no farm record's"),
        }
    }

    pub fn in_range(self) -> bool {
        RANGE.contains(&self.ch4) && RANGE.contains(&self.n2o)
    }

    /// CO2e of the sums; grazing is CO2e already.
    pub fn co2e(self, sums: Figures) -> i64 {
        let (ch4, n2o) = (u64::from(self.ch4) * sums.ch4, u64::from(self.n2o) * sums.n2o);
        sums.co2 + positive(ch4 + n2o + sums.grazing)
    }
}
