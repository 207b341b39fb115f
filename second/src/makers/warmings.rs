//! Stored cases of document 02's W11: farm records of version 2 with factors at their ends and as the sets have them, other versions, kind bytes and
//! lengths, states with any factors, and version 2 in the writer and in damaged books.

use crate::makers::books::right_close;
use crate::makers::cases::{in_every_room, whole};
use crate::makers::damages;
use crate::makers::dice::Seed;
use crate::makers::plain::{place_of, plain_values, sample, several_groups, under, FARM_2};
use crate::makers::states::{bare_states_with, factors_beside, least_co2, most_sums, FACTORS};
use crate::makers::trial::Case;
use crate::makers::writes::case;
use crate::model::kind;
use crate::model::record::{big_endian, record_of};
use crate::model::state::{State, MOST_RECORDS, SURE};
use crate::model::warming::{factors, Factors, SET_1};

/// What is drawn here knows no kind after grazing.
pub const SEED: Seed = Seed::with_factors(kind::GRAZING, 12);

pub fn stored(bases: &[State]) -> Vec<Case> {
    let mut cases = books();
    cases.extend(versions_and_lengths());
    cases.extend(second_farms());
    cases.extend(states(bases));
    cases.extend(closes());
    cases.extend(writes());
    cases.extend(damaged());
    cases.extend(damages::stored_of(SEED, 10..20));
    cases.extend((1..=100).map(|index| crate::makers::cases::case(SEED, index)));
    cases
}

fn farm_2(pair: Factors) -> Vec<u8> {
    record_of(kind::FARM, &[7, 2010, pair.ch4.into(), pair.n2o.into()])
}

fn farm_1() -> Vec<u8> {
    record_of(kind::FARM, &plain_values(kind::FARM))
}

/// The book with a farm record of version 2 in the place of its own.
pub fn with_farm(pair: Factors, book: &[u8]) -> Vec<u8> {
    [&farm_2(pair), &book[2 + usize::from(book[1])..]].concat()
}

/// One book with each pair of factors, and two in every room.
fn books() -> Vec<Case> {
    let book = |pair| whole(State::default(), with_farm(pair, &several_groups()), 4_096);
    let mut cases: Vec<Case> = FACTORS.into_iter().map(book).collect();
    cases.extend(in_every_room(with_farm(SET_1, &sample())));
    cases.extend(in_every_room(with_farm(factors(1, 1_000), &sample())));
    cases
}

/// A record of these three, with as many bytes as its length says: a farm number, a year, and factors that are right.
fn record_with(length: u16, version: u8, kind: u8) -> Vec<u8> {
    let mut record = big_endian(length.into(), 2);
    record.extend([version, kind, 0, 0, 0, 7, 7, 218, 0, 21, 1, 54]);
    record.resize(2 + usize::from(length), 1);
    record
}

/// Books that are refused by 2: farm records of no version, version 2 of other kind bytes, first and behind a farm record.
pub fn of_no_version() -> Vec<Vec<u8>> {
    let mut books = Vec::new();
    for version in [0, 3, 255] {
        books.extend([9, 12].map(|length| record_with(length, version, kind::FARM)));
    }
    for kind in [0, 2, 8, 11, 255] {
        books.push(record_with(12, 2, kind));
    }
    let mut heading = record_of(kind::HEADING, &plain_values(kind::HEADING));
    heading[2] = 2;
    books.push([farm_1(), heading.clone()].concat());
    books.push([farm_2(SET_1), heading].concat());
    books.push([farm_2(SET_1), record_with(12, 3, kind::FARM)].concat());
    books
}

/// Books that are refused by 4: each version with lengths beside its own, and with the other's, first and behind a farm record.
pub fn of_wrong_length() -> Vec<Vec<u8>> {
    let mut books = Vec::new();
    for (version, lengths) in [(1, [12, 8, 10, 26]), (2, [9, 11, 13, 4])] {
        books.extend(lengths.map(|length| record_with(length, version, kind::FARM)));
        books.push([farm_1(), record_with(lengths[0], version, kind::FARM)].concat());
        books.push([farm_2(SET_1), record_with(lengths[0], version, kind::FARM)].concat());
    }
    books
}

/// Those, and each version with each sort of kind byte and both lengths.
fn versions_and_lengths() -> Vec<Case> {
    let mut books = [of_no_version(), of_wrong_length()].concat();
    for version in [0, 1, 2, 3, 128, 255] {
        for kind in [0, 1, 2, 7, 10, 11, 255] {
            books.extend([9, 12].map(|length| record_with(length, version, kind)));
        }
    }
    books.into_iter().map(|book| whole(State::default(), book, SURE)).collect()
}

/// A farm record of either version behind one of either version.
fn second_farms() -> Vec<Case> {
    let farms = [farm_1(), farm_2(SET_1)];
    let mut cases = Vec::new();
    for first in &farms {
        for second in &farms {
            let book = [&first[..], second].concat();
            cases.push(whole(State::default(), book, SURE));
        }
    }
    cases
}

/// Factors at and beside their bounds in states of every sort, with a byte to take.
fn states(bases: &[State]) -> Vec<Case> {
    let pairs = [factors(0, 1), factors(1, 0), factors(1_000, 1_000), factors(1, 1_001)];
    let mut states = bare_states_with(&pairs);
    states.extend(bases.iter().flat_map(factors_beside));
    states.into_iter().map(|state| whole(state, vec![0], SURE)).collect()
}

/// A close behind sums by which each factor shows; and behind the largest, CO2 on both sides of zero.
fn closes() -> Vec<Case> {
    let mut open = State { sums: most_sums(1), ..under(1) };
    (open.sums.ch4, open.sums.n2o, open.sums.co2) = (1_000_003, 7, -5);
    let mut states = factors_beside(&open);
    for sums in [most_sums(MOST_RECORDS - 1), least_co2(MOST_RECORDS - 1)] {
        let full = State { records: MOST_RECORDS - 1, sums, ..under(4) };
        states.extend(FACTORS.map(|factors| State { factors, ..full }));
    }
    states.into_iter().map(|state| whole(state, right_close(&state), SURE)).collect()
}

/// Each factor at, beside and far outside its ends; then each refusal where the next one tried would hold as well, with no room.
fn writes() -> Vec<Case> {
    let mut cases = Vec::new();
    for value in [0, 1, 1_000, 1_001, 65_535, 65_536 + 21, u64::MAX] {
        for position in [2, 3] {
            let mut values = FARM_2;
            values[position] = value;
            cases.push(case(place_of(kind::FARM), kind::FARM, &values, 64));
        }
    }
    let full = State { records: MOST_RECORDS, ..under(1) };
    let offered: [(State, &[u64]); 6] = [
        (State { factors: factors(21, 0), ..full }, &[7, 0, 0, 0, 0]),
        (full, &[7, 0, 0, 0, 0]),
        (full, &[7, 0, 0, 0]),
        (under(1), &[7, 0, 0, 0]),
        (State::default(), &[7, 0, 0, 0]),
        (State::default(), &[7, 2010, 21, 310]),
    ];
    cases.extend(offered.map(|(state, values)| case(state, kind::FARM, values, 0)));
    cases
}

/// Farm records that are dropped before one of version 2 is kept, and behind it; with just enough room, and with less.
fn damaged() -> Vec<Case> {
    let book = [
        record_with(9, 2, kind::FARM),
        record_with(12, 3, kind::FARM),
        record_with(12, 2, kind::HEADING),
        farm_2(factors(0, 310)),
        farm_2(factors(1, 1_000)),
        farm_1(),
        farm_2(SET_1),
        several_groups()[11..].to_vec(),
    ]
    .concat();
    let clean = 14 + several_groups().len() - 11;
    let rooms = [(clean, 6 * 9), (clean - 1, 6 * 9), (clean, 6 * 9 - 1), (16_384, 4_096)];
    let with_rooms =
        |(book_room, list_room)| Case::Damaged { book: book.clone(), book_room, list_room };
    rooms.map(with_rooms).to_vec()
}
