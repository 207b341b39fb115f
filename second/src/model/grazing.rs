//! Document 02, W10: pasture feed by equation 12 of source document 000, with its table 2.4.6 as it is printed.

use crate::model::figures::{round, Figures};

/// Tonnes of CO2e per tonne of live weight and year, in hundredths, by region and column: dairy cows, heifers of more than a year, calves.
const TABLE: [[u128; 3]; 7] = [
    // Atlantic provinces
    [190, 134, 116],
    // Quebec
    [190, 134, 116],
    // Ontario
    [190, 134, 116],
    // Manitoba
    [187, 132, 115],
    // Saskatchewan
    [183, 129, 112],
    // Alberta
    [180, 127, 110],
    // British Columbia
    [181, 128, 111],
];

/// The printed factor of a region and column, each counted from 1.
pub fn factor(region: u128, column: u128) -> u128 {
    TABLE[region as usize - 1][column as usize - 1]
}

/// The figures of a kind 10 record; `v` is region, column, live weight, fraction of the yearly intake.
pub fn figures(head: u128, v: &[u128]) -> Figures {
    let grams = round(factor(v[0], v[1]) * v[2] * v[3] * head, 1_000);
    Figures { grazing: grams, ..Figures::default() }
}
