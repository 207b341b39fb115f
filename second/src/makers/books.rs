//! Books by chance: records that a state accepts, and records that it refuses by a wanted number.

use crate::makers::dice::Dice;
use crate::makers::plain::plain_values;
use crate::makers::states::some_factors;
use crate::model::feed::feed;
use crate::model::figures::x_of;
use crate::model::kind;
use crate::model::record::{fields_of, fields_with, length_of, record_of, Field};
use crate::model::state::{State, LARGE, MOST_RECORDS, NO_RECORD, OPEN};

/// The state after these bytes, however many lines they give.
pub fn after(state: &State, bytes: &[u8]) -> State {
    feed(state, bytes, LARGE).state
}

/// Days left under the heading for kind 3, 4 or 5.
fn days_left(state: &State, kind: u8) -> u64 {
    366 - u64::from(state.heading.days[kind::days_at(kind)])
}

/// What grazing records may still take under the heading.
fn fraction_left(state: &State) -> u64 {
    10_000 - u64::from(state.heading.grazed)
}

/// The kinds, the close left out, that this open state can accept, of those that the dice draw.
fn kinds_allowed(dice: &Dice, state: &State) -> Vec<u8> {
    if state.records == 0 {
        return vec![kind::FARM];
    }
    let mut kinds = vec![kind::ENERGY, kind::SOIL];
    if dice.knows(kind::TILLAGE) {
        kinds.push(kind::TILLAGE);
    }
    if state.heading.group < 65_535 {
        kinds.push(kind::HEADING);
    }
    let details: &[u8] = match state.heading.class {
        0 => &[],
        4 => &[kind::PIG; 3],
        _ => &[kind::ENTERIC, kind::ENTERIC, kind::CATTLE, kind::CATTLE],
    };
    kinds.extend(details.iter().filter(|&&kind| days_left(state, kind) > 0));
    if dice.knows(kind::GRAZING) && (1..=3).contains(&state.heading.class) {
        kinds.extend([kind::GRAZING; 2]);
    }
    kinds
}

/// Values of this kind that are right in themselves and right after the state.
pub fn right_values(dice: &mut Dice, state: &State, kind: u8) -> Vec<u64> {
    let mut v: Vec<u64> =
        fields_of(kind, 1).iter().map(|f| dice.edgy(u64::from(f.low), u64::from(f.high))).collect();
    match kind {
        kind::FARM => v = in_either_version(dice, v),
        kind::HEADING => v[0] = next_group(dice, state),
        kind::ENTERIC => {
            v[0] = some_days(dice, state, kind);
            if dice.one_in(6) {
                v[1] = dice.of(&[27_824, 27_825, 27_826, 83_475, 5_565]);
            }
        }
        kind::CATTLE => {
            v[0] = some_days(dice, state, kind);
            share(dice, &mut v);
            keep_x_up(dice, &mut v);
        }
        kind::PIG => {
            v[0] = some_days(dice, state, kind);
            v[10] = dice.edgy(0, 1_000 - v[8]);
        }
        kind::CLOSE => v[0] = u64::from(state.records),
        kind::TILLAGE if dice.one_in(6) => half_of_tillage(dice, &mut v),
        kind::GRAZING => v[3] = some_fraction(dice, state),
        _ => (),
    }
    v
}

/// A farm record's values, or half of the time version 2's with factors in place of the set, where the dice know them.
pub fn in_either_version(dice: &mut Dice, mut v: Vec<u64>) -> Vec<u64> {
    if dice.knows_factors() && dice.one_in(2) {
        let drawn = some_factors(dice);
        v.truncate(2);
        v.extend([drawn.ch4, drawn.n2o].map(u64::from));
    }
    v
}

/// A plain farm record, of version 2 half of the time where the dice know it.
pub fn some_farm(dice: &mut Dice) -> Vec<u8> {
    record_of(kind::FARM, &in_either_version(dice, plain_values(kind::FARM)))
}

/// 225 mg, on an area whose CO2 is an exact half, of either sign: 225 × 11 / 30 is 82.5.
fn half_of_tillage(dice: &mut Dice, v: &mut [u64]) {
    let area = 2 * dice.below(5_000_000) + 1;
    v.copy_from_slice(&[7, 3, dice.of(&[1, 4]), 1, area]);
}

fn next_group(dice: &mut Dice, state: &State) -> u64 {
    let low = u64::from(state.heading.group) + 1;
    let high = if dice.one_in(20) { 65_535 } else { 65_535.min(low + 9) };
    dice.edgy(low.min(65_535), high)
}

/// Mostly few days, so that a heading has room for several records.
fn some_days(dice: &mut Dice, state: &State, kind: u8) -> u64 {
    let left = days_left(state, kind).max(1);
    let most = if dice.one_in(3) { left } else { left.min(31) };
    dice.edgy(1, most)
}

/// Mostly a part of what is left, so that a heading has room for several records.
fn some_fraction(dice: &mut Dice, state: &State) -> u64 {
    let left = fraction_left(state);
    let most = if dice.one_in(3) { left } else { left.min(3_000) };
    dice.edgy(0, most)
}

fn share(dice: &mut Dice, v: &mut [u64]) {
    v[6] = dice.edgy(0, 10_000);
    v[7] = dice.edgy(0, 10_000 - v[6]);
    v[8] = 10_000 - v[6] - v[7];
}

/// Takes away milk, then gain, until X is not below zero; near zero now and then.
fn keep_x_up(dice: &mut Dice, v: &mut [u64]) {
    if dice.one_in(6) {
        v[1..6].copy_from_slice(dice.of(&[
            &[157, 1, 160, 1, 0],
            &[105, 1, 107, 1, 0],
            &[675, 1, 0, 0, 4],
        ]));
    }
    while x(v) < 0 {
        v[3] /= 2;
        if v[3] == 0 {
            v[5] /= 2;
        }
    }
}

fn x(v: &[u64]) -> i128 {
    x_of(&v.iter().map(|&n| u128::from(n)).collect::<Vec<_>>())
}

/// A record that this open state accepts; it must hold fewer than 4,095 records.
pub fn right_record(dice: &mut Dice, state: &State) -> Vec<u8> {
    let kinds = kinds_allowed(dice, state);
    let kind = dice.of(&kinds);
    record_of(kind, &right_values(dice, state, kind))
}

pub fn right_close(state: &State) -> Vec<u8> {
    record_of(kind::CLOSE, &[u64::from(state.records)])
}

/// So many right records after the state, without a close.
pub fn right_run(dice: &mut Dice, state: &State, count: u64) -> Vec<u8> {
    let mut state = *state;
    let mut bytes = Vec::new();
    for _ in 0..count {
        if state.records >= MOST_RECORDS {
            break;
        }
        let record = right_record(dice, &state);
        state = after(&state, &record);
        bytes.extend(record);
    }
    bytes
}

/// The run, and the close that belongs to it.
pub fn closed_run(dice: &mut Dice, state: &State, count: u64) -> Vec<u8> {
    let mut bytes = right_run(dice, state, count);
    bytes.extend(right_close(&after(state, &bytes)));
    bytes
}

/// A record that the state refuses by this number, where the state can come to it.
pub fn wrong_record(dice: &mut Dice, state: &State, number: u8) -> Option<Vec<u8>> {
    let full = state.records >= MOST_RECORDS;
    match number {
        1 => Some(bad_length(dice, state)),
        2 => Some(of_no_version(dice, state)),
        3 => Some(of_no_kind(dice, state)),
        4 => Some(length_of_another(dice, state)),
        5 => full.then(|| any_record(dice, state)),
        _ if full => None,
        6 => out_of_place(dice, state),
        7 => Some(out_of_range(dice, state)),
        8 => (state.heading.group > 0).then(|| old_group(dice, state)),
        9 => too_many_days(dice, state),
        10 => bad_parts(dice, state),
        11 => below_zero(dice, state),
        12 => (state.records > 0).then(|| wrong_count(dice, state)),
        _ => None,
    }
}

fn bad_length(dice: &mut Dice, state: &State) -> Vec<u8> {
    let length: u16 = dice.of(&[0, 1, 2, 3, 27, 28, 255, 256, 260, 2_560, 6_656, 65_535]);
    let mut record = any_record(dice, state);
    record[..2].copy_from_slice(&length.to_be_bytes());
    record
}

/// A record of a kind that would fit the place, if another number did not come first.
fn any_record(dice: &mut Dice, state: &State) -> Vec<u8> {
    let kinds = kinds_allowed(dice, state);
    let kind = dice.of(&kinds);
    record_of(kind, &right_values(dice, state, kind))
}

/// A version that the record's kind has not; version 2 is a farm record's alone, whose kind byte may be lost.
fn of_no_version(dice: &mut Dice, state: &State) -> Vec<u8> {
    let mut record = any_record(dice, state);
    if record[3] != kind::FARM {
        record[2] = dice.of(&[0, 2, 3, 128, 255]);
    } else if record[2] == 2 && dice.one_in(2) {
        record[3] = dice.of(&[0, 2, 3, 8, 10, 11, 255]);
    } else {
        record[2] = dice.of(&[0, 4, 3, 128, 255]);
    }
    record
}

fn of_no_kind(dice: &mut Dice, state: &State) -> Vec<u8> {
    let mut record = any_record(dice, state);
    record[2..4].copy_from_slice(&[1, dice.of(&[0, 11, 12, 16, 128, 255])]);
    record
}

/// The length of another kind or version, or none's, with as many bytes as it says.
fn length_of_another(dice: &mut Dice, state: &State) -> Vec<u8> {
    let mut record = any_record(dice, state);
    if record[3] == kind::FARM && dice.knows_factors() && dice.one_in(2) {
        record[2] = 3 - record[2];
        return record;
    }
    let right = length_of(record[3], record[2]);
    let neighbour = if dice.one_in(2) { right + 1 } else { right - 1 };
    let drawn = dice.between(4, 26) as u16;
    let length =
        *[neighbour, drawn, 4, 26].iter().find(|&&n| n != right && (4..=26).contains(&n)).unwrap();
    record.resize(2 + usize::from(length), dice.below(256) as u8);
    record[..2].copy_from_slice(&length.to_be_bytes());
    record
}

fn out_of_place(dice: &mut Dice, state: &State) -> Option<Vec<u8>> {
    let kinds: &[u8] = match (state.records, state.heading.class) {
        (0, _) => &[2, 3, 4, 5, 6, 7, 8, kind::TILLAGE, kind::GRAZING],
        (_, 0) => &[kind::FARM, kind::ENTERIC, kind::CATTLE, kind::PIG, kind::GRAZING],
        (_, 4) => &[kind::FARM, kind::ENTERIC, kind::CATTLE, kind::GRAZING],
        _ => &[kind::FARM, kind::PIG],
    };
    let known: Vec<u8> = kinds.iter().copied().filter(|&kind| dice.knows(kind)).collect();
    let kind = dice.of(&known);
    Some(record_of(kind, &right_values(dice, state, kind)))
}

/// Values just outside a field's range, or far outside, that its bytes can still say.
pub fn values_outside(f: &Field) -> Vec<u64> {
    let most = (1 << (8 * f.bytes)) - 1;
    let mut outside: Vec<u64> = Vec::new();
    if f.low > 0 {
        outside.extend([0, u64::from(f.low) - 1]);
    }
    if u64::from(f.high) < most {
        outside.extend([u64::from(f.high) + 1, most]);
    }
    outside
}

fn out_of_range(dice: &mut Dice, state: &State) -> Vec<u8> {
    let kinds = kinds_allowed(dice, state);
    loop {
        let kind = dice.of(&kinds);
        let mut v = right_values(dice, state, kind);
        let position = dice.below(v.len() as u64) as usize;
        let outside = values_outside(&fields_with(kind, v.len())[position]);
        if !outside.is_empty() {
            v[position] = dice.of(&outside);
            return record_of(kind, &v);
        }
    }
}

fn old_group(dice: &mut Dice, state: &State) -> Vec<u8> {
    let mut v = right_values(dice, state, kind::HEADING);
    v[0] = dice.edgy(1, u64::from(state.heading.group));
    record_of(kind::HEADING, &v)
}

fn too_many_days(dice: &mut Dice, state: &State) -> Option<Vec<u8>> {
    let kinds: &[u8] = match state.heading.class {
        0 => &[],
        4 => &[kind::PIG],
        _ => &[kind::ENTERIC, kind::CATTLE],
    };
    let kind = kinds.iter().copied().find(|&kind| days_left(state, kind) < 366)?;
    let mut v = right_values(dice, state, kind);
    v[0] = dice.edgy(days_left(state, kind) + 1, 366);
    Some(record_of(kind, &v))
}

fn bad_parts(dice: &mut Dice, state: &State) -> Option<Vec<u8>> {
    let may_graze = dice.knows(kind::GRAZING) && (1..=3).contains(&state.heading.class);
    if may_graze && state.heading.grazed > 0 && dice.one_in(2) {
        return Some(too_much_grazing(dice, state));
    }
    let kind = if state.heading.class == 4 { kind::PIG } else { kind::CATTLE };
    if state.heading.class == 0 || days_left(state, kind) == 0 {
        return None;
    }
    let mut v = right_values(dice, state, kind);
    if kind == kind::PIG {
        v[8] = dice.edgy(1, 1_000);
        v[10] = dice.edgy(1_001 - v[8], 1_000);
    } else if v[8] > 0 && dice.one_in(2) {
        v[8] -= dice.edgy(1, v[8]);
    } else {
        v[6] = dice.of(&[v[6] + 1, 10_000]).min(10_000);
        v[7] = (v[7] + 1).min(10_000);
    }
    (kind == kind::PIG || v[6] + v[7] + v[8] != 10_000).then(|| record_of(kind, &v))
}

/// A fraction that is right in itself and too much with those before it.
fn too_much_grazing(dice: &mut Dice, state: &State) -> Vec<u8> {
    let mut v = right_values(dice, state, kind::GRAZING);
    v[3] = dice.edgy(fraction_left(state) + 1, 10_000);
    record_of(kind::GRAZING, &v)
}

fn below_zero(dice: &mut Dice, state: &State) -> Option<Vec<u8>> {
    if !(1..=3).contains(&state.heading.class) || days_left(state, kind::CATTLE) == 0 {
        return None;
    }
    let mut v = right_values(dice, state, kind::CATTLE);
    match dice.below(3) {
        0 => v[1..6].copy_from_slice(&[52, 1, 53, 1, 0]),
        1 => v[1..6].copy_from_slice(&[0, 4_000, 0, 0, 1]),
        _ => v[3..6].copy_from_slice(&[8_000, 800, 3_000]),
    }
    if x(&v) >= 0 {
        v[1] = 0;
    }
    Some(record_of(kind::CATTLE, &v))
}

fn wrong_count(dice: &mut Dice, state: &State) -> Vec<u8> {
    let right = u64::from(state.records);
    let counts = [right + 1, right - 1, 0, 65_535, right ^ 0x100, 4_096];
    let count = loop {
        let drawn = dice.of(&counts);
        if drawn != right {
            break drawn;
        }
    };
    record_of(kind::CLOSE, &[count])
}

/// Right records up to a place where this number can come, the wrong one, and bytes after it.
pub fn damaged_run(dice: &mut Dice, state: &State, number: u8) -> Vec<u8> {
    let count = dice.below(6);
    let mut bytes = right_run(dice, state, count);
    let mut reached = after(state, &bytes);
    for _ in 0..40 {
        if !matches!(reached.stage, NO_RECORD | OPEN) {
            break;
        }
        if let Some(wrong) = wrong_record(dice, &reached, number) {
            bytes.extend(wrong);
            break;
        }
        let more = right_run(dice, &reached, 1);
        reached = after(&reached, &more);
        bytes.extend(more);
    }
    if dice.one_in(2) {
        bytes.extend(right_close(&reached));
    }
    bytes
}
