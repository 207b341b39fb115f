//! Stored cases of document 02's W7: every pair of the table, halves, both signs, both bounds of CO2, and tillage among all other records.

use crate::makers::cases::{in_every_room, whole};
use crate::makers::damages;
use crate::makers::dice::{Dice, Seed};
use crate::makers::plain::{book_of, plain_values, under};
use crate::makers::states::{co2_beside, least_co2, most_sums};
use crate::makers::trial::Case;
use crate::model::kind;
use crate::model::record::record_of;
use crate::model::state::{Heading, State, LINE, SURE};
use crate::model::warming::{SET_1, SET_2};

/// What is drawn here knows no kind after tillage.
pub const SEED: Seed = Seed::up_to(kind::TILLAGE, 7);

pub fn stored(bases: &[State]) -> Vec<Case> {
    let mut cases = every_pair();
    cases.extend(years_and_areas());
    cases.extend(halves());
    cases.extend(at_both_bounds());
    cases.extend(books().into_iter().flat_map(in_every_room));
    let beside = bases.iter().flat_map(co2_beside);
    cases.extend(beside.map(|state| whole(state, vec![0], SURE)));
    cases.extend(damages::stored_of(SEED, (0..20).chain(200..210)));
    cases.extend((1..=100).map(|index| crate::makers::cases::case(SEED, index)));
    cases
}

fn tillage(values: [u64; 5]) -> Vec<u8> {
    record_of(kind::TILLAGE, &values)
}

/// A record without a heading before it, and the close.
fn with_close(values: [u64; 5]) -> Case {
    let state = State { heading: Heading::default(), ..under(1) };
    whole(state, [tillage(values), record_of(kind::CLOSE, &[3])].concat(), SURE)
}

/// Each zone, texture and change, with years and areas by chance.
fn every_pair() -> Vec<Case> {
    let mut dice = Dice::of_case(SEED, 0);
    let mut cases = Vec::new();
    for zone in 1..=9 {
        for texture in 1..=3 {
            for change in 1..=6 {
                let (years, area) = (dice.edgy(1, 100), dice.edgy(0, 10_000_000));
                cases.push(with_close([zone, texture, change, years, area]));
            }
        }
    }
    cases
}

/// REQUESTS' pairs from the first year to the last, on the areas of its table.
fn years_and_areas() -> Vec<Case> {
    let mut cases = Vec::new();
    for [zone, texture, change] in
        [[1, 1, 1], [1, 3, 3], [7, 3, 1], [8, 2, 5], [8, 3, 5], [9, 3, 6]]
    {
        for years in [1, 2, 10, 50, 99, 100] {
            for area in [0, 1, 100, 10_000_000] {
                cases.push(with_close([zone, texture, change, years, area]));
            }
        }
    }
    cases
}

/// 82.5 g for each hundredth of a hectare, taken up and set free.
fn halves() -> Vec<Case> {
    let areas = [1, 3, 5, 7, 9_999_999];
    let both = |area| [1, 4].map(|change| with_close([7, 3, change, 1, area]));
    areas.into_iter().flat_map(both).collect()
}

/// The records that take up and set free the most, and the largest energy record, on sums at either bound.
fn at_both_bounds() -> Vec<Case> {
    let records = [
        tillage([8, 2, 3, 1, 10_000_000]),
        tillage([8, 2, 5, 1, 10_000_000]),
        record_of(kind::ENERGY, &[8, 10_000_000, 10_000_000]),
    ];
    let mut cases = Vec::new();
    for sums in [most_sums(2), least_co2(2)] {
        for record in &records {
            let input = [record.clone(), record_of(kind::CLOSE, &[3])].concat();
            for factors in [SET_1, SET_2] {
                let state = State { factors, sums, ..under(4) };
                cases.push(whole(state, input.clone(), LINE + SURE));
            }
        }
    }
    cases
}

/// Tillage before any heading, under cattle and under pigs, between their rations, and alone; the total's CO2e is below zero in the last two.
fn books() -> Vec<Vec<u8>> {
    let plain = |kind| (kind, 0, 0);
    let (cattle, pigs) = ((kind::HEADING, 12, 1), (kind::HEADING, 500, 4));
    let all = [
        plain(kind::FARM),
        plain(kind::TILLAGE),
        cattle,
        plain(kind::ENTERIC),
        plain(kind::TILLAGE),
        plain(kind::CATTLE),
        plain(kind::SOIL),
        pigs,
        plain(kind::TILLAGE),
        plain(kind::PIG),
        plain(kind::ENERGY),
        plain(kind::CLOSE),
    ];
    let farm = record_of(kind::FARM, &plain_values(kind::FARM));
    let credit = tillage([8, 2, 3, 1, 10_000_000]);
    let group = record_of(kind::HEADING, &[12, 1, 40]);
    let ration = record_of(kind::ENTERIC, &plain_values(kind::ENTERIC));
    let below_zero = [farm, group, ration, credit, record_of(kind::CLOSE, &[4])].concat();
    let alone = [plain(kind::FARM), plain(kind::TILLAGE), plain(kind::CLOSE)];
    vec![book_of(&all), below_zero, book_of(&alone)]
}
