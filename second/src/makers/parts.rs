//! Books that come in parts of one size, for every size from 1 to 60 bytes.

use crate::makers::books::{after, damaged_run, right_close, right_run, wrong_record};
use crate::makers::calls::calls_to_the_end;
use crate::makers::dice::{Dice, Seed};
use crate::makers::plain::{book_of, plain_values, under, FARM_2};
use crate::makers::states::right_state;
use crate::makers::trial::{Call, Case};
use crate::model::kind;
use crate::model::record::record_of;
use crate::model::state::{State, LINE, MOST_RECORDS, NO_RECORD, OPEN, SURE, TOTAL};
use std::ops::RangeInclusive;

pub const SIZES: RangeInclusive<usize> = 1..=60;

/// Rooms go to the calls in turn. This is more than the lines of any such part.
pub const ENOUGH: &[usize] = &[1_000];

/// Around a line and a subtotal with its total, so that records wait; the last makes each step sure.
pub const SHORT: &[usize] = &[LINE - 1, LINE, SURE - 1, TOTAL, 0, SURE];

/// How many fresh cases there are from one run through the sizes to the next, and where in them it begins.
const RUN: u64 = 400;
const FIRST: u64 = 220;

/// A trial has no more calls.
const MOST_CALLS: usize = 255;

fn in_parts(state: State, input: Vec<u8>, size: usize, rooms: &[usize], beyond: u64) -> Case {
    let next = |made: usize, _| Call { offer: size, room: rooms[made % rooms.len()] };
    let calls = calls_to_the_end(&state, &input, beyond, MOST_CALLS, next);
    Case::Book { state, input, calls }
}

/// In every 400 fresh cases, a book by chance in parts of each size.
pub fn of_each_size(seed: impl Into<Seed>, index: u64) -> Option<Case> {
    let size = (index % RUN + 1).checked_sub(FIRST)? as usize;
    if !SIZES.contains(&size) {
        return None;
    }
    let mut dice = Dice::of_case(seed, index);
    let (state, input) = some_book(&mut dice, size);
    let rooms = dice.of(&[ENOUGH, ENOUGH, SHORT, &[SURE], &[0, SURE]]);
    let beyond = dice.below(3);
    Some(in_parts(state, input, size, rooms, beyond))
}

/// Closed, damaged by any number, or cut short; from no record or an open state, its first bytes now and then taken before.
fn some_book(dice: &mut Dice, size: usize) -> (State, Vec<u8>) {
    let stage = dice.of(&[NO_RECORD, OPEN]);
    let mut state = right_state(dice, stage);
    let number = dice.between(1, 12) as u8;
    // Several parts of any size, with small ones not too many.
    let count = dice.between(1, 4 + size as u64 / 3);
    if stage == OPEN && number == 5 {
        state.records = state.records.max(MOST_RECORDS - count as u16);
    }
    let mut book = right_run(dice, &state, count);
    let reached = after(&state, &book);
    book.extend(match dice.below(2) {
        0 => right_close(&reached),
        _ => damaged_run(dice, &reached, number),
    });
    let end = if dice.one_in(3) { dice.below(book.len() as u64 + 1) as usize } else { book.len() };
    let before = if dice.one_in(3) { dice.below(end.min(27) as u64 + 1) as usize } else { 0 };
    (after(&state, &book[..before]), book[before..end].to_vec())
}

/// Each size with right, refused and unfinished books, with room enough and short rooms.
pub fn every_part_size() -> Vec<Case> {
    SIZES.flat_map(part_size).collect()
}

/// The first two right books change places from size to size, and with the last three have all kinds and versions together;
/// the unfinished one lacks as many bytes.
fn part_size(size: usize) -> [Case; 7] {
    let start = State::default();
    let mut books = [cattle_book(), pig_book()];
    let mut rooms = [ENOUGH, SHORT];
    books.rotate_left(size % 2);
    rooms.rotate_left(size / 2 % 2);
    let [first, second] = books;
    let unfinished = first[..first.len() - size].to_vec();
    let (place, refused) = refused_book(size);
    [
        in_parts(start, first, size, ENOUGH, 0),
        in_parts(start, second, size, SHORT, 0),
        in_parts(start, unfinished, size, rooms[0], 0),
        in_parts(place, refused, size, rooms[1], 0),
        in_parts(start, tillage_book(), size, rooms[1], 0),
        in_parts(start, grazing_book(), size, rooms[0], 0),
        in_parts(start, factors_book(), size, rooms[1], 0),
    ]
}

fn cattle_book() -> Vec<u8> {
    book_of(&[
        (kind::FARM, 0, 0),
        (kind::HEADING, 12, 1),
        (kind::ENTERIC, 0, 0),
        (kind::SOIL, 0, 0),
        (kind::CATTLE, 0, 0),
        (kind::CLOSE, 0, 0),
    ])
}

fn pig_book() -> Vec<u8> {
    book_of(&[
        (kind::FARM, 0, 0),
        (kind::HEADING, 500, 4),
        (kind::ENERGY, 0, 0),
        (kind::PIG, 0, 0),
        (kind::CLOSE, 0, 0),
    ])
}

fn tillage_book() -> Vec<u8> {
    book_of(&[
        (kind::FARM, 0, 0),
        (kind::TILLAGE, 0, 0),
        (kind::HEADING, 12, 2),
        (kind::TILLAGE, 0, 0),
        (kind::CLOSE, 0, 0),
    ])
}

fn grazing_book() -> Vec<u8> {
    book_of(&[
        (kind::FARM, 0, 0),
        (kind::HEADING, 12, 3),
        (kind::GRAZING, 0, 0),
        (kind::GRAZING, 0, 0),
        (kind::HEADING, 13, 1),
        (kind::GRAZING, 0, 0),
        (kind::CLOSE, 0, 0),
    ])
}

/// The pigs of a farm record of version 2.
fn factors_book() -> Vec<u8> {
    let pigs = pig_book();
    [record_of(kind::FARM, &FARM_2), pigs[2 + usize::from(pigs[1])..].to_vec()].concat()
}

/// A right record and one that is refused, by each number in turn.
fn refused_book(size: usize) -> (State, Vec<u8>) {
    let number = 1 + (size % 12) as u8;
    let mut dice = Dice::of_case(Seed::up_to(kind::CLOSE, 4), size as u64);
    let mut state = under(if number == 11 { 1 } else { dice.of(&[1, 4]) });
    state.heading.days = [300, 300, 300];
    state.records = if number == 5 { MOST_RECORDS - 1 } else { 3 };
    let soil = record_of(kind::SOIL, &plain_values(kind::SOIL));
    let wrong = wrong_record(&mut dice, &after(&state, &soil), number);
    (state, [soil, wrong.expect("a place where every number can come")].concat())
}
