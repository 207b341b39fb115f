//! Trial cases of the writer: right and wrong values of each kind, after states of every sort, with rooms around a record.

use crate::makers::books::{
    after, closed_run, right_close, right_record, values_outside, wrong_record,
};
use crate::makers::dice::{Dice, Seed};
use crate::makers::grazings;
use crate::makers::plain::{place_of, plain_rows, plain_values, sample, under};
use crate::makers::states::{right_state, some_beside, some_refusal};
use crate::makers::tillages;
use crate::makers::trial::Case;
use crate::makers::warmings;
use crate::model::kind;
use crate::model::record::{fields_with, number, record_of, values_of};
use crate::model::state::{
    Heading, Refusal, State, CLOSED, MOST_RECORDS, NO_RECORD, OPEN, REFUSED,
};
use crate::model::warming::{factors, NONE};
use crate::model::writer::write;

/// Numbers that are no kind, some of which end in a kind's byte.
const NO_KINDS: [u64; 9] = [0, 11, 12, 16, 255, 256 + 1, (1 << 32) + 3, 1 << 63, u64::MAX];

/// The most values that a case offers.
const MOST_VALUES: usize = 20;

/// How many fresh cases there are from one row of records to the next.
const ROW: u64 = 200;

/// The bytes of a record of this kind with these values, the two of its length among them.
fn size_of(kind: u8, values: &[u64]) -> usize {
    record_of(kind, values).len()
}

pub fn case(state: State, kind: u8, values: &[u64], room: usize) -> Case {
    Case::Write { state, kind: kind.into(), values: values.to_vec(), room }
}

/// A record's kind and values.
fn parts_of(record: &[u8]) -> (u8, Vec<u64>) {
    (record[3], values_of(record).into_iter().map(|value| value as u64).collect())
}

/// The records of an accepted book.
pub fn records_of(book: &[u8]) -> Vec<&[u8]> {
    let mut records = Vec::new();
    let mut rest = book;
    while !rest.is_empty() {
        let (record, more) = rest.split_at(2 + number(&rest[..2]) as usize);
        records.push(record);
        rest = more;
    }
    records
}

/// An accepted book's records, each written after the state that the one before gives.
pub fn row(book: &[u8]) -> Vec<Case> {
    let mut state = State::default();
    let mut cases = Vec::new();
    for (i, record) in records_of(book).into_iter().enumerate() {
        let (kind, values) = parts_of(record);
        let room = record.len() + i % 3;
        cases.push(case(state, kind, &values, room));
        state = write(&state, kind.into(), &values, room).expect("the book is accepted").state;
    }
    cases
}

/// The first cases of every 200 are the records of a book in a row.
pub fn in_a_row(seed: impl Into<Seed>, index: u64) -> Option<Case> {
    let place = index % ROW;
    if place > 12 {
        return None;
    }
    let mut dice = Dice::of_case(seed, index - place);
    let count = dice.between(1, 12);
    let book = closed_run(&mut dice, &State::default(), count);
    row(&book).into_iter().nth(place as usize)
}

/// A case by chance: what is offered suits a state in range, which may then be changed.
pub fn some_write(dice: &mut Dice) -> Case {
    let stage = dice.of(&[NO_RECORD, OPEN, OPEN, OPEN]);
    let mut base = right_state(dice, stage);
    if stage == OPEN && dice.one_in(8) {
        base.records = dice.of(&[4_094, 4_095, 4_096]);
    }
    let (known, mut values) = some_parts(dice, &base);
    let size = size_of(known, &values);
    let mut kind = u64::from(known);
    match dice.below(8) {
        0 => past_its_bytes(dice, known, &mut values),
        1 => another_count(dice, &mut values),
        2 => kind = dice.of(&NO_KINDS),
        3 => kind = dice.between(kind::FARM.into(), dice.newest().into()),
        _ => (),
    }
    let state = some_state(dice, &base);
    let any = dice.below(64) as usize;
    let room = dice.of(&[0, size - 1, size, size, size + 1, 64, 64, 64, any]);
    Case::Write { state, kind, values, room }
}

/// Kind and values of a record that the state accepts, or that it refuses by 5 to 12.
fn some_parts(dice: &mut Dice, state: &State) -> (u8, Vec<u64>) {
    let number = dice.between(5, 12) as u8;
    if dice.one_in(2) {
        if let Some(record) = wrong_record(dice, state, number) {
            return parts_of(&record);
        }
    }
    if state.records > 0 && dice.one_in(6) {
        return parts_of(&right_close(state));
    }
    parts_of(&right_record(dice, state))
}

/// One value becomes too big for its bytes; often its last bytes are still right.
fn past_its_bytes(dice: &mut Dice, kind: u8, values: &mut [u64]) {
    let position = dice.below(values.len() as u64) as usize;
    let bits = 8 * fields_with(kind, values.len())[position].bytes;
    let more = dice.below(1 << (64 - bits));
    let high = dice.of(&[1, 256, 1 << (63 - bits), more.max(1)]) << bits;
    values[position] = dice.of(&[values[position] + high, values[position] | high, u64::MAX]);
}

fn another_count(dice: &mut Dice, values: &mut Vec<u64>) {
    let count = values.len();
    let drawn = dice.below(MOST_VALUES as u64 + 1) as usize;
    let fill = dice.of(&[0, 1, u64::MAX]);
    values.resize(dice.of(&[0, count - 1, count + 1, MOST_VALUES, drawn]), fill);
}

/// Mostly the state itself; else holding bytes, closed, refused, or with one part at or beside a bound.
fn some_state(dice: &mut Dice, base: &State) -> State {
    match dice.below(12) {
        0 => {
            let record = sample();
            let held = dice.between(1, 10) as usize;
            after(base, &record[..held])
        }
        1 => State { stage: CLOSED, ..*base },
        2 => {
            let refusal = some_refusal(dice, base.records);
            State { stage: REFUSED, refusal, ..*base }
        }
        3 => some_beside(dice, base),
        _ => *base,
    }
}

/// The stored ones.
pub fn stored() -> Vec<Case> {
    let mut cases = rooms();
    cases.extend(counts());
    cases.extend(values_too_big());
    cases.extend(values_out_of_range());
    cases.extend(no_kinds());
    cases.extend(every_sort_of_state());
    cases.extend(in_order());
    cases.extend(row(&sample()));
    for seed in [Seed::up_to(kind::CLOSE, 4), tillages::SEED, grazings::SEED, warmings::SEED] {
        let mut dice = Dice::of_case(seed, 0);
        for count in [9, 12] {
            cases.extend(row(&closed_run(&mut dice, &State::default(), count)));
        }
    }
    cases
}

/// Each kind with each room that matters.
fn rooms() -> Vec<Case> {
    let mut cases = Vec::new();
    for (kind, plain) in plain_rows() {
        let size = size_of(kind, &plain);
        for room in [0, size - 1, size, size + 1, 64] {
            cases.push(case(place_of(kind), kind, &plain, room));
        }
    }
    cases
}

/// Too few and too many values; a farm record with one more or less is of the other version.
fn counts() -> Vec<Case> {
    let mut cases = Vec::new();
    for (kind, right) in plain_rows() {
        for count in [right.len() - 1, right.len() + 1, MOST_VALUES] {
            let mut values = right.clone();
            values.resize(count, 1);
            cases.push(case(place_of(kind), kind, &values, 64));
        }
    }
    cases
}

/// The plain values of a kind with one of them changed.
fn with_value(kind: u8, plain: &[u64], position: usize, value: u64) -> Case {
    let mut values = plain.to_vec();
    values[position] = value;
    case(place_of(kind), kind, &values, 64)
}

/// Each field with a value whose last bytes alone would be right, and each kind's last field with the largest there is.
fn values_too_big() -> Vec<Case> {
    let mut cases = Vec::new();
    for (kind, plain) in plain_rows() {
        for (position, f) in fields_with(kind, plain.len()).iter().enumerate() {
            cases.push(with_value(kind, &plain, position, plain[position] + (1 << (8 * f.bytes))));
        }
        cases.push(with_value(kind, &plain, plain.len() - 1, u64::MAX));
    }
    cases
}

/// Each kind's first field that has any, and its last, outside their ranges.
fn values_out_of_range() -> Vec<Case> {
    let mut cases = Vec::new();
    for (kind, plain) in plain_rows().into_iter().filter(|&(kind, _)| kind != kind::CLOSE) {
        let fields = fields_with(kind, plain.len());
        let first = fields.iter().position(|f| !values_outside(f).is_empty());
        for position in first.into_iter().chain([fields.len() - 1]) {
            let outside = values_outside(&fields[position]).into_iter();
            cases.extend(outside.map(|value| with_value(kind, &plain, position, value)));
        }
    }
    cases
}

fn no_kinds() -> Vec<Case> {
    let offered =
        |kind| Case::Write { state: under(1), kind, values: plain_values(kind::ENTERIC), room: 64 };
    NO_KINDS.into_iter().map(offered).collect()
}

/// Holding bytes, closed, refused, without heading, full, and out of range, offered an energy record.
fn every_sort_of_state() -> Vec<Case> {
    let open = under(2);
    let no_heading = State { heading: Heading::default(), ..open };
    let mut states = vec![State::default(), no_heading];
    states.extend([1, 2, 5].map(|held| after(&open, &sample()[..held])));
    states.extend([1, 10].map(|held| after(&State::default(), &sample()[..held])));
    states.push(State { stage: CLOSED, ..open });
    for (code, field) in [(1, 0), (7, 1), (7, 12), (12, 0)] {
        states.push(refused(open, code, field));
    }
    states.push(State { factors: NONE, ..open });
    states.push(State { held_count: 1 << 32, ..open });
    states.push(State { stage: 4, ..open });
    states.push(State { records: MOST_RECORDS, ..open });
    states
        .into_iter()
        .map(|state| case(state, kind::ENERGY, &plain_values(kind::ENERGY), 64))
        .collect()
}

fn refused(open: State, code: u8, field: u8) -> State {
    let refusal = Refusal { code, record: open.records, field };
    State { stage: REFUSED, refusal, ..open }
}

/// Each refusal where the next one tried would hold as well, and all with no room.
pub fn in_order() -> Vec<Case> {
    let open = under(1);
    let late = State { heading: Heading { days: [366; 3], ..open.heading }, ..open };
    let pig = State { heading: Heading { class: 4, ..late.heading }, ..open };
    let full = State { records: MOST_RECORDS, ..open };
    let grazed = State { heading: Heading { grazed: 10_000, ..open.heading }, ..open };
    let offered: [(State, u8, &[u64]); 19] = [
        (State { factors: factors(1_001, 310), ..refused(open, 6, 0) }, 0, &[]),
        (refused(open, 6, 0), 0, &[]),
        (State { stage: CLOSED, ..open }, 0, &[]),
        (after(&open, &[0]), 9, &[]),
        (full, 0, &[]),
        (full, kind::FARM, &[7, 0]),
        (full, kind::FARM, &[7, 0, 3]),
        (open, kind::FARM, &[7, 0, 3]),
        (open, kind::PIG, &[0; 12]),
        (open, kind::HEADING, &[5, 5, 20_001]),
        (open, kind::HEADING, &[5, 4, 20_000]),
        (late, kind::CATTLE, &[1, 0, 0, 0, 0, 1, 0, 0, 0]),
        (pig, kind::PIG, &[1, 0, 0, 0, 0, 0, 0, 0, 1_000, 0, 1, 0]),
        (open, kind::CATTLE, &[1, 0, 0, 0, 0, 1, 0, 0, 0]),
        (open, kind::CATTLE, &[1, 0, 0, 0, 0, 1, 0, 0, 10_000]),
        (open, kind::CLOSE, &[3]),
        (pig, kind::GRAZING, &[8, 4, 2_001, 10_001]),
        (grazed, kind::GRAZING, &[1, 1, 2_001, 1]),
        (grazed, kind::GRAZING, &[1, 1, 2_000, 1]),
    ];
    let no_room = |(state, kind, values): (State, u8, &[u64])| Case::Write {
        state,
        kind: kind.into(),
        values: values.to_vec(),
        room: 0,
    };
    offered.into_iter().map(no_room).collect()
}
