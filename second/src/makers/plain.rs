//! Plain books and states: document 01's sample, right values of each kind, and places for a record.

use crate::makers::books::values_outside;
use crate::makers::trial::bytes_of;
use crate::model::kind;
use crate::model::record::{fields_with, record_of};
use crate::model::state::{Heading, State, OPEN};
use crate::model::warming::SET_1;

/// Document 01's sample book.
pub const SAMPLE: &str = concat!(
    "000901010000000707da01",
    "00070102000c010028",
    "000a0103001f00007530028a",
    "000b0106010000007d00011170",
    "000a0103001c00007530028a",
    "000401080005",
);

pub fn sample() -> Vec<u8> {
    bytes_of(SAMPLE).expect("the sample is hex")
}

/// Right values of each kind, as the paper's examples have them where it gives any.
pub fn plain_values(kind: u8) -> Vec<u64> {
    match kind {
        kind::FARM => vec![7, 2010, 1],
        kind::HEADING => vec![12, 1, 40],
        kind::ENTERIC => vec![31, 30_000, 650],
        kind::CATTLE => vec![30, 2_000, 1_600, 3_000, 320, 0, 2_000, 8_000, 0],
        kind::PIG => vec![100, 200, 1_000, 1_000, 200, 1_800, 1_000, 200, 250, 1_000, 0, 0],
        kind::ENERGY => vec![1, 125, 70_000],
        kind::SOIL => vec![100],
        kind::TILLAGE => vec![1, 1, 1, 1, 100],
        kind::GRAZING => vec![3, 1, 600, 5_000],
        _ => vec![2],
    }
}

/// Right values of a farm record of version 2.
pub const FARM_2: [u64; 4] = [7, 2010, 25, 298];

/// Each kind with its plain values, and a farm record of version 2 last.
pub fn plain_rows() -> Vec<(u8, Vec<u64>)> {
    let mut rows: Vec<(u8, Vec<u64>)> = kind::ALL.map(|kind| (kind, plain_values(kind))).collect();
    rows.push((kind::FARM, FARM_2.to_vec()));
    rows
}

/// Records of these kinds with plain values, a heading with its group and class, and a right close where 8 stands.
pub fn book_of(records: &[(u8, u64, u64)]) -> Vec<u8> {
    let record = |(before, &(kind, group, class)): (usize, &(u8, u64, u64))| match kind {
        kind::HEADING => record_of(kind::HEADING, &[group, class, 40]),
        kind::CLOSE => record_of(kind::CLOSE, &[before as u64]),
        _ => record_of(kind, &plain_values(kind)),
    };
    records.iter().enumerate().flat_map(record).collect()
}

/// Cattle, nothing, pigs and cattle again, with energy and soil between their rations.
pub fn several_groups() -> Vec<u8> {
    let plain = |kind| (kind, 0, 0);
    let heading = |group, class| (kind::HEADING, group, class);
    let cattle = [
        heading(12, 1),
        plain(kind::ENTERIC),
        plain(kind::ENERGY),
        plain(kind::CATTLE),
        plain(kind::SOIL),
        plain(kind::ENTERIC),
    ];
    let pigs = [
        heading(13, 2),
        heading(500, 4),
        plain(kind::SOIL),
        plain(kind::PIG),
        plain(kind::ENERGY),
        plain(kind::PIG),
    ];
    let last = [heading(65_535, 3), plain(kind::CATTLE), plain(kind::ENERGY), plain(kind::CLOSE)];
    book_of(&[&[plain(kind::FARM), plain(kind::ENERGY)], &cattle[..], &pigs, &last].concat())
}

/// Twelve heads of cattle or pigs, and nothing eaten yet.
pub fn under(class: u8) -> State {
    let heading = Heading { group: 5, class, head: 12, days: [0; 3], grazed: 0 };
    State { stage: OPEN, records: 2, factors: SET_1, heading, ..State::default() }
}

pub fn place_of(kind: u8) -> State {
    match kind {
        kind::FARM => State::default(),
        kind::PIG => under(4),
        _ => under(1),
    }
}

/// Records of a kind with each field at its ends, and outside them, all other fields as they are given.
pub fn field_end_records(kind: u8, plain: &[u64]) -> Vec<Vec<u8>> {
    let mut records = Vec::new();
    for (position, f) in fields_with(kind, plain.len()).iter().enumerate() {
        let mut values = vec![u64::from(f.low), u64::from(f.high)];
        values.extend(values_outside(f));
        for value in values {
            let mut v = plain.to_vec();
            v[position] = value;
            records.push(record_of(kind, &v));
        }
    }
    records
}
