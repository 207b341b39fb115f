//! The values that are usual on a farm, field by field, in the book's units; others go in and are told.

use crate::model::fields::{CLASSES, COLUMNS};
use crate::model::kind;

/// A usual range, its ends included, and the class or column that it is for where it goes by one.
#[derive(Debug, PartialEq, Eq)]
pub struct Usual {
    pub whose: Option<&'static str>,
    pub low: u64,
    pub high: u64,
}

/// Milking, dry and heifer.
const GE: [(u64, u64); 3] = [(10_000, 65_000), (6_000, 40_000), (1_500, 35_000)];
const CATTLE_FEED: [(u64, u64); 3] = [(500, 3_500), (300, 2_200), (50, 2_000)];
const MILK: [(u64, u64); 3] = [(300, 7_000), (0, 0), (0, 0)];

/// Cows, heifers and calves.
const LIVE_WEIGHT: [(u64, u64); 3] = [(350, 900), (150, 650), (30, 350)];

const YM: (u64, u64) = (300, 900);
const CATTLE_PROTEIN: (u64, u64) = (600, 2_600);
const MILK_PROTEIN: (u64, u64) = (200, 500);
const GAIN: (u64, u64) = (0, 1_500);

/// A pig record's fields behind its days: feed, VS excretion, VS factor, MCF, protein, N factor, direct EF, then part and EF of what volatilises and
/// of what leaches.
const PIG: [(u64, u64); 11] = [
    (30, 800),
    (400, 2_000),
    (800, 1_200),
    (0, 500),
    (1_000, 2_600),
    (500, 1_200),
    (0, 1_000),
    (0, 700),
    (0, 2_000),
    (0, 300),
    (0, 1_500),
];

/// The usual range of the value at this place of a right record of this kind, under a heading of this class; none where there is none.
pub fn usual_at(kind: u8, class: u8, values: &[u64], place: usize) -> Option<Usual> {
    let by_class = |ranges: [(u64, u64); 3]| going_by(&CLASSES, ranges, class.into());
    match (kind, place) {
        (kind::ENTERIC, 1) => by_class(GE),
        (kind::ENTERIC, 2) => for_all(YM),
        (kind::CATTLE, 1) => by_class(CATTLE_FEED),
        (kind::CATTLE, 2) => for_all(CATTLE_PROTEIN),
        (kind::CATTLE, 3) => by_class(MILK),
        (kind::CATTLE, 4) if values[3] > 0 => for_all(MILK_PROTEIN),
        (kind::CATTLE, 5) => for_all(GAIN),
        (kind::PIG, 1..) => for_all(PIG[place - 1]),
        (kind::GRAZING, 2) => going_by(&COLUMNS, LIVE_WEIGHT, values[1]),
        _ => None,
    }
}

fn for_all((low, high): (u64, u64)) -> Option<Usual> {
    Some(Usual { whose: None, low, high })
}

/// The range for one of the names, counted from 1.
fn going_by(names: &[&'static str], ranges: [(u64, u64); 3], which: u64) -> Option<Usual> {
    let at = which as usize - 1;
    let (low, high) = ranges[at];
    Some(Usual { whose: Some(names[at]), low, high })
}
