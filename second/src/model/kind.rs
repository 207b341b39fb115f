//! Document 01's eight kinds of record and document 02's two more (W7, W10) by name, and the kind of its subtotal line (W2), which no record has.

use std::ops::RangeInclusive;

pub const FARM: u8 = 1;
pub const HEADING: u8 = 2;
pub const ENTERIC: u8 = 3;
pub const CATTLE: u8 = 4;
pub const PIG: u8 = 5;
pub const ENERGY: u8 = 6;
pub const SOIL: u8 = 7;
pub const CLOSE: u8 = 8;
pub const TILLAGE: u8 = 9;
pub const GRAZING: u8 = 10;
pub const SUBTOTAL: u8 = 16;

/// The kinds of records.
pub const ALL: RangeInclusive<u8> = FARM..=GRAZING;

/// Those that have days, and that a subtotal counts.
pub const WITH_DAYS: RangeInclusive<u8> = ENTERIC..=PIG;

/// Whether records of this kind stand under a heading.
pub fn of_group(kind: u8) -> bool {
    WITH_DAYS.contains(&kind) || kind == GRAZING
}

/// The place of a kind that has days among the day sums.
pub fn days_at(kind: u8) -> usize {
    usize::from(kind - ENTERIC)
}

/// The kind with this number, where there is one.
pub fn of(number: u64) -> Option<u8> {
    u8::try_from(number).ok().filter(|kind| ALL.contains(kind))
}
