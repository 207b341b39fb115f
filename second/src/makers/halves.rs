//! Document 02, W8: records whose figures come to an exact half, above an even number and above an odd one, on both sides of zero.

use crate::makers::cases::whole;
use crate::makers::dice::{Dice, Seed};
use crate::makers::plain::under;
use crate::makers::trial::Case;
use crate::model::kind;
use crate::model::record::{fields_of, record_of};
use crate::model::state::{State, LINE, SURE};
use std::ops::RangeInclusive;

/// A heading's class and head count, and a record under it.
pub type Half = (u8, u16, u8, &'static [u64]);

/// In pairs, the half above an even number first; soil has none, since its division is by three.
pub const RECORDS: [Half; 30] = [
    // Enteric CH4 0.5, 1.5.
    (1, 1, kind::ENTERIC, &[1, 27_825, 1]),
    (1, 1, kind::ENTERIC, &[1, 83_475, 1]),
    // Cattle: excreted 0.5, 1.5.
    (1, 1, kind::CATTLE, &[1, 25, 125, 0, 0, 0, 0, 0, 10_000]),
    (1, 1, kind::CATTLE, &[1, 75, 125, 0, 0, 0, 0, 0, 10_000]),
    // Cattle: direct N2O of 35,000 g 434.5, of 105,000 g 1303.5.
    (1, 70, kind::CATTLE, &[1, 1_250, 2_500, 0, 0, 0, 8_000, 2_000, 0]),
    (1, 70, kind::CATTLE, &[3, 1_250, 2_500, 0, 0, 0, 8_000, 2_000, 0]),
    // Cattle: indirect N2O of 7,000 g 60.5, of 21,000 g 181.5.
    (1, 14, kind::CATTLE, &[1, 1_250, 2_500, 0, 0, 0, 5_000, 5_000, 0]),
    (1, 14, kind::CATTLE, &[3, 1_250, 2_500, 0, 0, 0, 5_000, 5_000, 0]),
    // Cattle: both, 434.5 and 258.5, then 1303.5 and 775.5.
    (1, 70, kind::CATTLE, &[1, 1_250, 2_500, 0, 0, 0, 10_000, 0, 0]),
    (1, 70, kind::CATTLE, &[3, 1_250, 2_500, 0, 0, 0, 10_000, 0, 0]),
    // Pig: V 0.5 mg, 1.5 mg.
    (4, 20_000, kind::PIG, &[366, 1, 500, 1, 1_000, 0, 0, 0, 0, 0, 0, 0]),
    (4, 20_000, kind::PIG, &[366, 3, 500, 1, 1_000, 0, 0, 0, 0, 0, 0, 0]),
    // Pig: CH4 100.5, 301.5.
    (4, 3_125, kind::PIG, &[100, 1_000, 1, 1, 1_000, 0, 0, 0, 0, 0, 0, 0]),
    (4, 3_125, kind::PIG, &[300, 1_000, 1, 1, 1_000, 0, 0, 0, 0, 0, 0, 0]),
    // Pig: excreted 10.5, 3.5.
    (4, 1, kind::PIG, &[3, 1_000, 0, 0, 0, 3_125, 10, 0, 0, 0, 0, 0]),
    (4, 1, kind::PIG, &[1, 1_000, 0, 0, 0, 3_125, 10, 0, 0, 0, 0, 0]),
    // Pig: direct N2O of 350 g 16.5, 5.5.
    (4, 1, kind::PIG, &[1, 1_000, 0, 0, 0, 3_125, 1_000, 3_000, 0, 0, 0, 0]),
    (4, 1, kind::PIG, &[1, 1_000, 0, 0, 0, 3_125, 1_000, 1_000, 0, 0, 0, 0]),
    // Pig: indirect N2O of 350 g 16.5, 5.5.
    (4, 1, kind::PIG, &[1, 1_000, 0, 0, 0, 3_125, 1_000, 0, 200, 10_000, 100, 10_000]),
    (4, 1, kind::PIG, &[1, 1_000, 0, 0, 0, 3_125, 1_000, 0, 100, 10_000, 0, 0]),
    // Pig: land N 0.5 of 1 g, 1.5 of 3 g.
    (4, 1, kind::PIG, &[1, 100, 0, 0, 0, 100, 1_000, 0, 250, 0, 250, 0]),
    (4, 3, kind::PIG, &[1, 100, 0, 0, 0, 100, 1_000, 0, 250, 0, 250, 0]),
    // Energy 0.5, 1.5.
    (1, 1, kind::ENERGY, &[1, 5, 1]),
    (1, 1, kind::ENERGY, &[1, 15, 1]),
    // Tillage of 225 mg taken up: 82.5, 247.5.
    (1, 1, kind::TILLAGE, &[7, 3, 1, 1, 1]),
    (1, 1, kind::TILLAGE, &[7, 3, 1, 1, 3]),
    // Tillage of 225 mg set free: 82.5, 247.5.
    (1, 1, kind::TILLAGE, &[7, 3, 4, 1, 1]),
    (1, 1, kind::TILLAGE, &[7, 3, 4, 1, 3]),
    // Grazing 28.5, 9.5.
    (1, 1, kind::GRAZING, &[3, 1, 150, 1]),
    (1, 1, kind::GRAZING, &[3, 1, 50, 1]),
];

/// Which of a record's values is multiplied: its days, or where it has none its area, amount or fraction.
fn place_of_times(kind: u8, values: &[u64]) -> usize {
    if kind::WITH_DAYS.contains(&kind) {
        0
    } else {
        values.len() - 1
    }
}

/// A state where the record comes, and the record with that value so many times as large.
fn with_times(half: Half, times: u64) -> (State, Vec<u8>) {
    let (class, head, kind, values) = half;
    let mut state = under(class);
    state.heading.head = head;
    let mut values = values.to_vec();
    values[place_of_times(kind, half.3)] *= times;
    (state, record_of(kind, &values))
}

/// Each of them and a close.
pub fn stored() -> Vec<Case> {
    let case = |half: &Half| {
        let (state, record) = with_times(*half, 1);
        whole(state, [record, record_of(kind::CLOSE, &[3])].concat(), LINE + SURE)
    };
    RECORDS.iter().map(case).collect()
}

/// Of every 200 fresh cases, those at these places: one of the halves, an odd number of times as large, so that most are halves still.
pub const PLACES: RangeInclusive<u64> = 180..=185;

pub fn now_and_then(seed: Seed, index: u64) -> Option<Case> {
    PLACES.contains(&(index % 200)).then(|| {
        let mut dice = Dice::of_case(seed, index);
        let half = dice.of(&RECORDS);
        let (_, _, kind, values) = half;
        let place = place_of_times(kind, values);
        let most = u64::from(fields_of(kind, 1)[place].high) / values[place];
        let times = 2 * dice.below((most + 1) / 2) + 1;
        let (state, record) = with_times(half, times);
        whole(state, [record, record_of(kind::CLOSE, &[3])].concat(), LINE + SURE)
    })
}
