//! Trial cases: one by chance for each seed and index, and the stored set, which is the same for ever.

use crate::makers::books::{
    after, closed_run, damaged_run, in_either_version, right_close, right_run, wrong_record,
};
use crate::makers::calls::{some_calls, MOST_ROOM, ROOMS};
use crate::makers::damages;
use crate::makers::dice::{Dice, Seed};
use crate::makers::grazings;
use crate::makers::halves;
use crate::makers::parts;
use crate::makers::plain::{
    book_of, field_end_records, place_of, plain_rows, plain_values, sample, several_groups, under,
};
use crate::makers::slips;
use crate::makers::states::{
    bare_states, beside_bounds, heading_beside, most_subtotal, most_sums, right_state, some_beside,
    subtotal_beside,
};
use crate::makers::tillages;
use crate::makers::trial::{Call, Case};
use crate::makers::warmings;
use crate::makers::writes;
use crate::model::figures::Subtotal;
use crate::model::kind;
use crate::model::record::record_of;
use crate::model::state::{
    Heading, Refusal, State, CLOSED, LINE, MOST_RECORDS, NO_RECORD, OPEN, REFUSED, SURE,
};

/// The fresh case of this seed and index.
pub fn fresh(seed: u64, index: u64) -> Case {
    halves::now_and_then(seed.into(), index).unwrap_or_else(|| case(seed, index))
}

/// A case by chance, of those that are stored too.
pub fn case(seed: impl Into<Seed>, index: u64) -> Case {
    let seed = seed.into();
    if let Some(case) = writes::in_a_row(seed, index)
        .or_else(|| parts::of_each_size(seed, index))
        .or_else(|| damages::now_and_then(seed, index))
    {
        return case;
    }
    let mut dice = Dice::of_case(seed, index);
    let dice = &mut dice;
    if dice.one_in(4_000) {
        return longest_book(dice);
    }
    if dice.one_in(8) {
        return writes::some_write(dice);
    }
    match dice.below(20) {
        0..=3 => from_no_record(dice),
        4..=6 => damaged(dice, &State::default()),
        7..=9 => resumed(dice),
        10..=11 => near_the_end(dice),
        12..=13 => out_of_range(dice),
        14 => ended(dice),
        15 => any_bytes(dice),
        16 => flipped(dice),
        _ => slips::some_slip(dice),
    }
}

fn book(dice: &mut Dice, state: State, input: Vec<u8>) -> Case {
    let calls = some_calls(dice, &state, &input);
    Case::Book { state, input, calls }
}

/// A right book, mostly closed, now and then with bytes behind its close.
fn from_no_record(dice: &mut Dice) -> Case {
    let count = dice.of(&[1, 2, 3, 5, 8, 8, 13, 20]);
    let mut input = closed_run(dice, &State::default(), count);
    match dice.below(6) {
        0 => input.truncate(dice.below(input.len() as u64 + 1) as usize),
        1 => input.push(dice.below(256) as u8),
        _ => (),
    }
    book(dice, State::default(), input)
}

fn damaged(dice: &mut Dice, state: &State) -> Case {
    let number = dice.between(1, 12) as u8;
    let mut input = damaged_run(dice, state, number);
    if dice.one_in(5) {
        input.truncate(dice.below(input.len() as u64 + 1) as usize);
    }
    book(dice, *state, input)
}

/// Any open state in range, its next record partly held, right or wrong records coming.
fn resumed(dice: &mut Dice) -> Case {
    let state = right_state(dice, OPEN);
    let count = dice.below(6);
    let input = match dice.below(3) {
        0 => {
            let number = dice.between(1, 12) as u8;
            damaged_run(dice, &state, number)
        }
        _ => closed_run(dice, &state, count),
    };
    let cut = dice.below(input.len().min(60) as u64 + 1) as usize;
    let (held, rest) = input.split_at(cut);
    let state = after(&state, held);
    book(dice, state, rest.to_vec())
}

/// Open states with few records left, up to none.
fn near_the_end(dice: &mut Dice) -> Case {
    let mut state = right_state(dice, OPEN);
    state.records = dice.of(&[4_092, 4_093, 4_094, 4_095, 4_095, 4_096, 4_096]);
    if dice.one_in(3) {
        return damaged(dice, &state);
    }
    let left = u64::from(MOST_RECORDS - state.records);
    let count = dice.below(left + 2);
    let mut input = right_run(dice, &state, count);
    input.extend(right_close(&after(&state, &input)));
    book(dice, state, input)
}

fn out_of_range(dice: &mut Dice) -> Case {
    let stage = dice.of(&[NO_RECORD, OPEN, OPEN, CLOSED, REFUSED]);
    let mut base = right_state(dice, stage);
    if stage < CLOSED && base.records < MOST_RECORDS {
        let bytes = right_run(dice, &base, 1);
        let held = dice.below(bytes.len() as u64) as usize;
        base = after(&base, &bytes[..held]);
    }
    let state = some_beside(dice, &base);
    let count = dice.below(40) as usize;
    let input: Vec<u8> = sample()[..count].to_vec();
    book(dice, state, input)
}

/// A closed or refused state, offered more.
fn ended(dice: &mut Dice) -> Case {
    let stage = dice.of(&[CLOSED, REFUSED]);
    let state = right_state(dice, stage);
    let count = dice.below(40) as usize;
    let input = sample()[..count].to_vec();
    book(dice, state, input)
}

fn any_bytes(dice: &mut Dice) -> Case {
    let stage = dice.of(&[NO_RECORD, OPEN]);
    let state = right_state(dice, stage);
    let mut input: Vec<u8> =
        (0..dice.below(80)).map(|_| dice.of(&[0, 0, 1, 4, 9, 10, 200])).collect();
    if input.len() > 1 && dice.one_in(2) {
        input[..2].copy_from_slice(&[0, dice.between(4, 26) as u8]);
    }
    book(dice, state, input)
}

/// A right book with a few bits turned over.
fn flipped(dice: &mut Dice) -> Case {
    let count = dice.between(1, 10);
    let mut input = closed_run(dice, &State::default(), count);
    for _ in 0..dice.between(1, 3) {
        let at = dice.below(input.len() as u64) as usize;
        input[at] ^= 1 << dice.below(8);
    }
    book(dice, State::default(), input)
}

/// 4,096 records, or one more, of the two shortest kinds; many calls with the most room.
fn longest_book(dice: &mut Dice) -> Case {
    let farm = vec![dice.below(1 << 32), 2_010, dice.of(&[1, 2])];
    let mut input = record_of(kind::FARM, &in_either_version(dice, farm));
    let details = dice.of(&[4_093, 4_094, 4_095]);
    for i in 0..details {
        if dice.one_in(3) {
            input
                .extend(record_of(kind::HEADING, &[i + 1, dice.between(1, 4), dice.below(20_001)]));
        } else {
            input.extend(record_of(kind::SOIL, &[dice.edgy(0, 10_000_000)]));
        }
    }
    input.extend(record_of(kind::CLOSE, &[details + 1]));
    let offer = input.len();
    let calls = vec![Call { offer, room: MOST_ROOM }; 15];
    Case::Book { state: State::default(), input, calls }
}

/// The stored set: named cases first, then some of each sort by chance.
pub fn stored() -> Vec<Case> {
    let mut cases = sample_cases();
    cases.extend(field_ends());
    cases.extend(each_place());
    cases.extend(groups());
    cases.extend(group_ends());
    cases.extend(heaviest());
    cases.extend(each_number());
    cases.extend(each_clause());
    cases.extend(parts::every_part_size());
    cases.extend(slips::at_the_ends());
    cases.extend(writes::stored());
    cases.extend(damages::stored());
    let seed = Seed::up_to(kind::CLOSE, 1);
    let mut dice = Dice::of_case(seed, 0);
    cases.push(longest_book(&mut dice));
    cases.extend((0..60).map(|_| slips::some_slip(&mut dice)));
    cases.extend((1..=150).map(|index| case(seed, index)));
    cases.extend(tillages::stored(&clause_bases()));
    cases.extend(halves::stored());
    cases.extend(grazings::stored(&clause_bases()));
    cases.extend(warmings::stored(&clause_bases()));
    cases
}

pub fn whole(state: State, input: Vec<u8>, room: usize) -> Case {
    let calls = vec![Call { offer: input.len(), room }];
    Case::Book { state, input, calls }
}

/// The sample book whole, byte by byte, and with each room that matters.
fn sample_cases() -> Vec<Case> {
    let start = State::default();
    let mut cases = vec![whole(start, sample(), 4_096), whole(start, Vec::new(), 0)];
    for room in ROOMS.into_iter().chain([223, 224, 277, 278]) {
        let calls = vec![Call { offer: 1_000, room }; 5];
        cases.push(Case::Book { state: start, input: sample(), calls });
    }
    cases.push(byte_by_byte(sample()));
    cases
}

/// With the room that makes each step sure.
fn byte_by_byte(input: Vec<u8>) -> Case {
    let calls = vec![Call { offer: 1, room: SURE }; input.len() + 1];
    Case::Book { state: State::default(), input, calls }
}

/// Books whose groups have many rations, one, or none.
fn groups() -> Vec<Case> {
    let plain = |kind| (kind, 0, 0);
    let heading = |group| (kind::HEADING, group, 1);
    let books = [
        several_groups(),
        book_of(&[plain(kind::FARM), plain(kind::CLOSE)]),
        book_of(&[plain(kind::FARM), plain(kind::SOIL), plain(kind::ENERGY), plain(kind::CLOSE)]),
        book_of(&[plain(kind::FARM), heading(1), plain(kind::CLOSE)]),
        book_of(&[plain(kind::FARM), heading(1), heading(2), heading(65_535), plain(kind::CLOSE)]),
        book_of(&[
            plain(kind::FARM),
            heading(9),
            plain(kind::ENERGY),
            plain(kind::SOIL),
            heading(10),
            plain(kind::ENTERIC),
            plain(kind::CLOSE),
        ]),
        book_of(&[
            plain(kind::FARM),
            heading(9),
            plain(kind::ENTERIC),
            heading(9),
            plain(kind::CLOSE),
        ]),
    ];
    books.into_iter().flat_map(in_every_room).collect()
}

/// A book whole, with each room that matters, and byte by byte.
pub fn in_every_room(input: Vec<u8>) -> Vec<Case> {
    let start = State::default();
    let mut cases = vec![whole(start, input.clone(), 4_096)];
    for room in [54, 62, 108, 115, 116, 117, 170] {
        let calls = vec![Call { offer: 1_000, room }; 12];
        cases.push(Case::Book { state: start, input: input.clone(), calls });
    }
    cases.push(byte_by_byte(input));
    cases
}

/// Records that end a group, after others or alone, with each room that matters; wrong ones with room and without.
fn group_ends() -> Vec<Case> {
    let mut with_group = State { records: 4, sums: most_sums(3), ..under(1) };
    with_group.subtotal =
        Subtotal { ch4: 434_501, n2o: 18_304, excreted: 1_318_672, land: 302_400 };
    let full_group = State { subtotal: most_subtotal(4), ..with_group };
    let no_group =
        State { heading: Heading::default(), subtotal: Subtotal::default(), ..with_group };
    let (enteric, energy) = (
        record_of(kind::ENTERIC, &plain_values(kind::ENTERIC)),
        record_of(kind::ENERGY, &plain_values(kind::ENERGY)),
    );
    let heading = |group, head| record_of(kind::HEADING, &[group, 1, head]);
    let close = |before| record_of(kind::CLOSE, &[before]);
    let ends = [
        (with_group, heading(6, 40)),
        (full_group, heading(6, 40)),
        (no_group, heading(6, 40)),
        (with_group, close(4)),
        (full_group, close(4)),
        (no_group, close(4)),
        (with_group, [enteric.clone(), heading(6, 40)].concat()),
        (with_group, [enteric, close(5)].concat()),
        (with_group, [energy.clone(), close(5)].concat()),
        (no_group, [energy, close(5)].concat()),
        (with_group, [heading(6, 40), close(5)].concat()),
        (with_group, [heading(6, 40), heading(7, 40)].concat()),
    ];
    let mut cases = Vec::new();
    for wrong in [heading(6, 20_001), heading(5, 40), close(5)] {
        cases.extend([0, SURE].map(|room| whole(with_group, wrong.clone(), room)));
    }
    for (state, input) in ends {
        for room in ROOMS.into_iter().chain([171]) {
            let first = Call { offer: input.len(), room };
            let calls = vec![first, Call { room: SURE, ..first }];
            cases.push(Case::Book { state, input: input.clone(), calls });
        }
    }
    cases
}

fn field_ends() -> Vec<Case> {
    let cases_of = |(kind, plain): (u8, Vec<u64>)| {
        let records = field_end_records(kind, &plain).into_iter();
        records.map(move |record| whole(place_of(kind), record, SURE))
    };
    plain_rows().into_iter().flat_map(cases_of).collect()
}

/// Each kind with no record before it, with no heading, and under each class.
fn each_place() -> Vec<Case> {
    let no_heading = State { heading: Heading::default(), ..under(1) };
    let mut places = vec![State::default(), no_heading];
    places.extend((1..=4).map(under));
    let mut cases = Vec::new();
    for (kind, plain) in plain_rows() {
        let record = record_of(kind, &plain);
        cases.extend(places.iter().map(|&state| whole(state, record.clone(), SURE)));
    }
    cases
}

/// The largest figures there are, added to the largest subtotal and sums.
fn heaviest() -> Vec<Case> {
    let records: [(u8, &[u64]); 6] = [
        (kind::ENTERIC, &[366, 100_000, 2_000]),
        (kind::CATTLE, &[366, 5_000, 4_000, 0, 0, 0, 0, 10_000, 0]),
        (
            kind::PIG,
            &[366, 1_000, 5_000, 2_000, 1_000, 4_000, 2_000, 10_000, 999, 10_000, 1, 9_999],
        ),
        (kind::PIG, &[366, 1_000, 5_000, 2_000, 1_000, 4_000, 2_000, 10_000, 0, 10_000, 0, 10_000]),
        (kind::ENERGY, &[8, 10_000_000, 10_000_000]),
        (kind::SOIL, &[10_000_000]),
    ];
    let mut cases = Vec::new();
    for (kind, values) in records {
        let mut state = place_of(kind);
        state.heading.head = 20_000;
        state.subtotal = most_subtotal(state.records);
        state.sums = most_sums(state.records);
        let input = [record_of(kind, values), record_of(kind::CLOSE, &[3])].concat();
        cases.push(whole(state, input, LINE + SURE));
    }
    cases
}

/// Each refusal number, several times, with room and without.
fn each_number() -> Vec<Case> {
    let mut cases = Vec::new();
    let full = State { records: MOST_RECORDS, ..under(2) };
    for number in 1..=12 {
        for index in 0..4 {
            let seed = Seed::up_to(kind::CLOSE, 2);
            let mut dice = Dice::of_case(seed, u64::from(number) * 100 + index);
            let state = if number == 5 { full } else { State::default() };
            let input = damaged_run(&mut dice, &state, number);
            cases.push(book(&mut dice, state, input));
        }
        cases.extend(no_room(number));
    }
    cases
}

/// A wrong record where even a right one would find no room.
fn no_room(number: u8) -> Option<Case> {
    let mut dice = Dice::of_case(Seed::up_to(kind::CLOSE, 3), u64::from(number));
    let class = dice.of(&[1, 4]);
    let mut state = under(if number == 11 { 1 } else { class });
    state.heading.days = [300, 300, 300];
    state.records = if number == 5 { MOST_RECORDS } else { 3 };
    let input = wrong_record(&mut dice, &state, number)?;
    Some(whole(state, input, 0))
}

/// A state of each sort: of no record, holding bytes, closed, refused.
fn clause_bases() -> [State; 4] {
    let mut held = under(3);
    held.records = 7;
    held.sums.ch4 = 1_000_000;
    held.subtotal.ch4 = 400_000;
    let held = after(&held, &sample()[20..26]);
    let closed = State { stage: CLOSED, ..under(4) };
    let mut refused = State { stage: REFUSED, ..under(2) };
    refused.refusal = Refusal { code: 7, record: 2, field: 3 };
    [State::default(), held, closed, refused]
}

/// Each part of a state at and beside its bounds.
fn each_clause() -> Vec<Case> {
    let mut states = bare_states();
    for base in clause_bases() {
        states.extend(beside_bounds(&base));
    }
    let without_heading = State { heading: Heading::default(), ..under(1) };
    states.extend(heading_beside(&without_heading));
    states.extend(subtotal_beside(&without_heading));
    states.into_iter().map(|state| whole(state, vec![0], SURE)).collect()
}
