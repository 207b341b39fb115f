//! Document 01, "The book": the table of the kinds, with document 02's W7, W10 and W11, and numbers to bytes and back.

use crate::model::kind;

/// One field: how many bytes it takes and the range it must lie in.
pub struct Field {
    pub bytes: usize,
    pub low: u32,
    pub high: u32,
}

const fn field(bytes: usize, low: u32, high: u32) -> Field {
    Field { bytes, low, high }
}

const DAYS: Field = field(2, 1, 366);

const FARM_FIELDS: [Field; 3] = [field(4, 0, u32::MAX), field(2, 1900, 2200), field(1, 1, 2)];
const FACTOR: Field = field(2, 1, 1_000);
const FARM_2_FIELDS: [Field; 4] = [field(4, 0, u32::MAX), field(2, 1900, 2200), FACTOR, FACTOR];
const HEADING_FIELDS: [Field; 3] = [field(2, 1, 65_535), field(1, 1, 4), field(2, 0, 20_000)];
const ENTERIC_FIELDS: [Field; 3] = [DAYS, field(4, 0, 100_000), field(2, 0, 2_000)];
const CATTLE_FIELDS: [Field; 9] = [
    DAYS,
    field(2, 0, 5_000),
    field(2, 0, 4_000),
    field(2, 0, 8_000),
    field(2, 0, 800),
    field(2, 0, 3_000),
    field(2, 0, 10_000),
    field(2, 0, 10_000),
    field(2, 0, 10_000),
];
const PIG_FIELDS: [Field; 12] = [
    DAYS,
    field(2, 0, 1_000),
    field(2, 0, 5_000),
    field(2, 0, 2_000),
    field(2, 0, 1_000),
    field(2, 0, 4_000),
    field(2, 0, 2_000),
    field(2, 0, 10_000),
    field(2, 0, 1_000),
    field(2, 0, 10_000),
    field(2, 0, 1_000),
    field(2, 0, 10_000),
];
const ENERGY_FIELDS: [Field; 3] =
    [field(1, 1, 8), field(4, 0, 10_000_000), field(4, 0, 10_000_000)];
const AREA: Field = field(4, 0, 10_000_000);
const SOIL_FIELDS: [Field; 1] = [AREA];
const CLOSE_FIELDS: [Field; 1] = [field(2, 0, 65_535)];
const TILLAGE_FIELDS: [Field; 5] =
    [field(1, 1, 9), field(1, 1, 3), field(1, 1, 6), field(2, 1, 100), AREA];

const GRAZING_FIELDS: [Field; 4] =
    [field(1, 1, 7), field(1, 1, 3), field(2, 0, 2_000), field(2, 0, 10_000)];

/// The lengths that a record may state at all.
pub const LENGTHS: std::ops::RangeInclusive<u16> = 4..=26;

/// Whether a record with this kind byte may have this version byte: 1 always, 2 where it is a farm record (W11).
pub fn has_version(kind: u8, version: u8) -> bool {
    version == 1 || (version == 2 && kind == kind::FARM)
}

/// The version of a kind's record that has so many values: 1, unless they are a farm record's four.
pub fn version_with(kind: u8, count: usize) -> u8 {
    if kind == kind::FARM && count == FARM_2_FIELDS.len() {
        2
    } else {
        1
    }
}

/// The fields of a kind 1..10 in a version that it has, in order.
pub fn fields_of(kind: u8, version: u8) -> &'static [Field] {
    match kind {
        kind::FARM if version == 2 => &FARM_2_FIELDS,
        kind::FARM => &FARM_FIELDS,
        kind::HEADING => &HEADING_FIELDS,
        kind::ENTERIC => &ENTERIC_FIELDS,
        kind::CATTLE => &CATTLE_FIELDS,
        kind::PIG => &PIG_FIELDS,
        kind::ENERGY => &ENERGY_FIELDS,
        kind::SOIL => &SOIL_FIELDS,
        kind::CLOSE => &CLOSE_FIELDS,
        kind::TILLAGE => &TILLAGE_FIELDS,
        kind::GRAZING => &GRAZING_FIELDS,
        _ => panic!("{kind} is no kind"),
    }
}

/// The fields that so many values of a kind are of.
pub fn fields_with(kind: u8, count: usize) -> &'static [Field] {
    fields_of(kind, version_with(kind, count))
}

/// The length that a record of this kind and version states: version, kind and fields.
pub fn length_of(kind: u8, version: u8) -> u16 {
    let bytes: usize = fields_of(kind, version).iter().map(|f| f.bytes).sum();
    u16::try_from(2 + bytes).expect("a record is short")
}

/// An unsigned big-endian number.
pub fn number(bytes: &[u8]) -> u128 {
    bytes.iter().fold(0, |n, &byte| n * 256 + u128::from(byte))
}

/// The field values of a whole record, by its kind and version.
pub fn values_of(record: &[u8]) -> Vec<u128> {
    let mut at = 4;
    let mut values = Vec::new();
    for f in fields_of(record[3], record[2]) {
        values.push(number(&record[at..at + f.bytes]));
        at += f.bytes;
    }
    values
}

/// The last `bytes` bytes of a number, high byte first.
pub fn big_endian(value: u64, bytes: usize) -> Vec<u8> {
    value.to_be_bytes()[8 - bytes..].to_vec()
}

/// A record of this kind with these values, of the version that has so many; a value too big for its field loses its high bytes.
pub fn record_of(kind: u8, values: &[u64]) -> Vec<u8> {
    let version = version_with(kind, values.len());
    let mut record = big_endian(u64::from(length_of(kind, version)), 2);
    record.extend([version, kind]);
    for (f, &value) in fields_of(kind, version).iter().zip(values) {
        record.extend(big_endian(value, f.bytes));
    }
    record
}
