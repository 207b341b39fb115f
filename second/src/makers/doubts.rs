//! Books by chance to ask why they are refused (document 02, W6).

use crate::makers::books::{
    after, closed_run, damaged_run, right_close, right_values, some_farm, values_outside,
};
use crate::makers::damages::damaged;
use crate::makers::dice::Dice;
use crate::makers::plain::{plain_rows, plain_values};
use crate::makers::warmings::{of_no_version, of_wrong_length};
use crate::model::kind;
use crate::model::record::{fields_with, record_of};
use crate::model::state::{State, MOST_RECORDS};

/// A book for each end of each field's range that a value can cross.
fn beyond_each_end() -> Vec<Vec<u8>> {
    let mut books = Vec::new();
    for (kind, plain) in plain_rows() {
        let mut start = Vec::new();
        if kind != kind::FARM {
            start.extend(record_of(kind::FARM, &plain_values(kind::FARM)));
        }
        if kind::of_group(kind) {
            let class = if kind == kind::PIG { 4 } else { 1 };
            start.extend(record_of(kind::HEADING, &[12, class, 40]));
        }
        for (position, f) in fields_with(kind, plain.len()).iter().enumerate() {
            for value in values_outside(f) {
                let mut values = plain.clone();
                values[position] = value;
                books.push([start.clone(), record_of(kind, &values)].concat());
            }
        }
    }
    // Where the range begins at 1, 0 is far below it and just below it.
    books.dedup();
    books
}

/// A book of 4,096 records without a close, and one record more.
fn one_too_many(dice: &mut Dice) -> Vec<u8> {
    let mut book = some_farm(dice);
    for _ in 1..=MOST_RECORDS {
        book.extend(record_of(kind::SOIL, &[1]));
    }
    book
}

/// Grazing records whose fractions pass the whole with the last, which may be one of several.
fn too_much_grazing(dice: &mut Dice) -> Vec<u8> {
    let mut book =
        [some_farm(dice), record_of(kind::HEADING, &[12, dice.between(1, 3), 40])].concat();
    let mut state = after(&State::default(), &book);
    while state.heading.grazed == 0 || dice.one_in(3) {
        let record = record_of(kind::GRAZING, &right_values(dice, &state, kind::GRAZING));
        state = after(&state, &record);
        book.extend(record);
    }
    let fraction = dice.edgy(10_001 - u64::from(state.heading.grazed), 10_000);
    [book, record_of(kind::GRAZING, &[1, 1, 1, fraction])].concat()
}

/// The books in turn.
fn one_of(mut books: Vec<Vec<u8>>, turn: u64) -> Vec<u8> {
    let at = turn as usize % books.len();
    books.swap_remove(at)
}

/// Of so many books in turn, so many are beyond an end.
const ROUND: u64 = 20;
const BEYOND: u64 = 4;

/// So many books have each of those beyond an end among them.
pub fn enough() -> u64 {
    (beyond_each_end().len() as u64).div_ceil(BEYOND) * ROUND
}

/// A book to ask it of, by chance: refused by each number, in other versions, beyond each end, cut, right, or with bytes after it.
pub fn doubtful(seed: u64, index: u64) -> Vec<u8> {
    let mut dice = Dice::of_case(seed, index);
    let dice = &mut dice;
    let start = State::default();
    let count = dice.between(1, 30);
    match index % ROUND {
        0 => {
            // Now and then one byte alone is missing.
            let mut book = closed_run(dice, &start, count);
            let anywhere = dice.below(book.len() as u64) as usize;
            book.truncate(if dice.one_in(4) { book.len() - 1 } else { anywhere });
            book
        }
        1 => closed_run(dice, &start, count),
        2 => [closed_run(dice, &start, count), vec![0, 0, 1]].concat(),
        3 => damaged(seed, index),
        5 if index % 40 == 5 => one_of(of_no_version(), index / 40),
        7 if index % 40 == 27 => one_of(of_wrong_length(), index / 40),
        7 if index % 100 == 7 => one_too_many(dice),
        13 if index % 40 == 13 => too_much_grazing(dice),
        4..=15 => damaged_run(dice, &start, (index % ROUND - 3) as u8),
        _ => {
            let mut book = one_of(beyond_each_end(), (index / ROUND) * BEYOND + index % ROUND - 16);
            book.extend(right_close(&after(&start, &book)));
            book
        }
    }
}
