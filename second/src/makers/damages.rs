//! Damaged books by chance: right books whose records are spoilt, lost, doubled, exchanged or cut.

use crate::makers::books::{after, closed_run, right_close, right_record, some_farm, wrong_record};
use crate::makers::desk::{long_book, many_groups};
use crate::makers::dice::{Dice, Seed};
use crate::makers::plain::plain_values;
use crate::makers::trial::Case;
use crate::model::kind;
use crate::model::record::record_of;
use crate::model::salvage::{salvage, LONGEST};
use crate::model::state::State;

/// The damaged book of this seed and index.
pub fn damaged(seed: impl Into<Seed>, index: u64) -> Vec<u8> {
    let mut dice = Dice::of_case(seed, index);
    let dice = &mut dice;
    let start = State::default();
    let count = dice.between(1, 40);
    let round = index / 100 * 3 + index % 100 / 30;
    match index % 100 {
        0 => Vec::new(),
        1 => closed_run(dice, &start, count),
        2 => [closed_run(dice, &start, count), closed_run(dice, &start, 3)].concat(),
        3 => {
            let book = closed_run(dice, &start, count);
            cut(dice, book)
        }
        4 => (0..dice.below(2_000)).map(|_| dice.below(256) as u8).collect(),
        5 => short_records(dice),
        6 => {
            let book = closed_run(dice, &start, count);
            turned_over(dice, book)
        }
        7 => headless(dice),
        8 | 38 | 68 => beside_the_most(dice, round),
        9 | 39 | 69 => beside_the_longest(dice, round),
        _ => spoilt(dice, count),
    }
}

fn cut(dice: &mut Dice, mut book: Vec<u8>) -> Vec<u8> {
    book.truncate(dice.below(book.len() as u64) as usize);
    book
}

/// Records of any bytes, right in their lengths alone.
fn short_records(dice: &mut Dice) -> Vec<u8> {
    let mut book = some_farm(dice);
    for _ in 0..dice.between(1, 60) {
        let length = dice.between(4, 26);
        book.extend([0, length as u8]);
        book.extend([
            dice.of(&[1, 1, 1, 0, 2]),
            some_kind(dice, &[0, 1, 2, 2, 3, 4, 5, 6, 7, 8, 9, 255]),
        ]);
        book.extend((2..length).map(|_| dice.of(&[0, 0, 1, 2, 100, 255])));
    }
    book
}

/// A kind byte of these, or grazing's where the dice know it.
fn some_kind(dice: &mut Dice, kinds: &[u8]) -> u8 {
    let mut kinds = kinds.to_vec();
    if dice.knows(kind::GRAZING) {
        kinds.push(kind::GRAZING);
    }
    dice.of(&kinds)
}

fn turned_over(dice: &mut Dice, mut book: Vec<u8>) -> Vec<u8> {
    for _ in 0..dice.between(1, 6) {
        let at = dice.below(book.len() as u64) as usize;
        book[at] ^= 1 << dice.below(8);
    }
    book
}

/// A book that has lost its farm record, or has it later, or several times.
fn headless(dice: &mut Dice) -> Vec<u8> {
    let start = State::default();
    let whole = closed_run(dice, &start, 12);
    let rest = whole[2 + usize::from(whole[1])..].to_vec();
    match dice.below(4) {
        0 => rest,
        1 => [rest, some_farm(dice)].concat(),
        2 => [some_farm(dice), some_farm(dice), rest.clone(), some_farm(dice), rest].concat(),
        _ => [right_close(&start), whole].concat(),
    }
}

/// About 4,095 kept records, with dropped ones among them.
fn beside_the_most(dice: &mut Dice, round: u64) -> Vec<u8> {
    let details = 4_090 + round % 12;
    let book = if round % 2 == 0 { long_book(details) } else { many_groups(details) };
    let farm = 2 + usize::from(book[1]);
    let wrong = [0, 4, 2, 2, 0, 0].repeat(dice.below(5) as usize);
    match dice.below(3) {
        0 => book,
        1 => [&book[..farm], &wrong[..], &book[farm..]].concat(),
        _ => [&book[..], &wrong[..]].concat(),
    }
}

/// As many dropped records as the longest damaged book has, some bytes fewer or more.
fn beside_the_longest(dice: &mut Dice, round: u64) -> Vec<u8> {
    let mut book = some_farm(dice);
    let record: [u8; 6] = dice.of(&[[0, 4, 2, 8, 0, 0], [0, 4, 1, 3, 0, 0], [0, 4, 1, 2, 1, 1]]);
    while book.len() < LONGEST {
        book.extend(record);
    }
    let behind = [0, 1, 2, 3, 7, 12][(round % 6) as usize];
    book.resize(LONGEST + 3 - behind, 0);
    book
}

/// A book whose records, one after the other, are right after the kept ones, or spoilt.
fn spoilt(dice: &mut Dice, count: u64) -> Vec<u8> {
    let often = dice.between(1, 6);
    let mut state = State::default();
    let mut book = Vec::new();
    for _ in 0..count {
        let right = right_record(dice, &state);
        if dice.one_in(often) {
            book.extend(spoil(dice, &state, &right));
        } else {
            book.extend(&right);
            state = after(&state, &right);
        }
    }
    match dice.below(6) {
        0 => book,
        1 => cut(dice, [book, right_close(&state)].concat()),
        2 => [book, record_of(8, &[dice.below(50)])].concat(),
        3 => [book, vec![0, 6, 1, 8, 0, 0, 0, 0], right_close(&state)].concat(),
        _ => [book, right_close(&state)].concat(),
    }
}

/// What stands in the place of a right record: it is wrong, lost, doubled, or something stands before or behind it.
fn spoil(dice: &mut Dice, state: &State, right: &[u8]) -> Vec<u8> {
    let number = dice.of(&[2, 3, 4, 6, 7, 8, 9, 10, 11, 2, 4, 7, 8]);
    match dice.below(12) {
        0 => Vec::new(),
        1 => [right, right].concat(),
        2 => [some_farm(dice), right.to_vec()].concat(),
        3 => group(dice, state),
        4 => with(right, 2, dice.of(&[0, 2, 255])),
        5 => with(right, 3, some_kind(dice, &[0, 1, 2, 3, 4, 5, 6, 7, 8, 9, 255])),
        6 if dice.one_in(6) => vec![0, dice.of(&[0, 3, 27, 255])],
        7 if dice.one_in(4) => record_of(8, &[dice.below(40)]),
        8 => group(dice, state),
        _ => wrong_record(dice, state, number).unwrap_or_default(),
    }
}

fn with(record: &[u8], at: usize, byte: u8) -> Vec<u8> {
    let mut record = record.to_vec();
    record[at] = byte;
    record
}

/// A heading that is wrong in some way, with details under it, one of them wrong itself, then perhaps a right one.
fn group(dice: &mut Dice, state: &State) -> Vec<u8> {
    let next = u64::from(state.heading.group) + 1;
    let class = dice.between(1, 4);
    let right = record_of(2, &[next, class, 30]);
    let mut book = match dice.below(5) {
        0 => with(&right, 2, 9),
        1 => [vec![0, 8, 1, 2], right[4..].to_vec(), vec![0]].concat(),
        2 => record_of(2, &[u64::from(state.heading.group), class, 30]),
        3 => record_of(2, &[next, 5, 30]),
        _ => record_of(2, &[next, class, 20_001]),
    };
    for _ in 0..dice.between(1, 5) {
        let last = if dice.knows(kind::TILLAGE) { kind::TILLAGE } else { kind::ENTERIC };
        let kind = some_kind(dice, &[3, 4, 5, 6, 7, last]);
        let detail = record_of(kind, &plain_values(kind));
        book.extend(if dice.one_in(5) { with(&detail, 2, 7) } else { detail });
    }
    if dice.one_in(3) {
        book.extend(right);
    }
    book
}

/// The longest damaged book of a trial, and the most room for its list.
const MOST_BYTES: usize = 16_000;
const MOST_LIST: usize = 4_096;

/// A damaged book of a trial with rooms around what it needs, now and then with none or plenty.
fn with_rooms(dice: &mut Dice, mut book: Vec<u8>) -> Case {
    book.truncate(MOST_BYTES);
    let (enough, all) = match salvage(&book, usize::MAX, usize::MAX) {
        Ok((clean, list)) => (clean.len(), list.len()),
        Err(_) => (6, 9),
    };
    let near = |dice: &mut Dice, needed: usize, most: usize| {
        let room = match dice.below(8) {
            0 => needed.saturating_sub(1),
            1 => dice.below(needed as u64 + 1) as usize,
            2 => 0,
            3 => needed + dice.below(30) as usize,
            _ => needed,
        };
        room.min(most)
    };
    let book_room = near(dice, enough, 16_384);
    let list_room = near(dice, all, MOST_LIST);
    Case::Damaged { book, book_room, list_room }
}

/// One of every 16 fresh cases is a damaged book.
pub fn now_and_then(seed: Seed, index: u64) -> Option<Case> {
    (index % 16 == 5).then(|| {
        let mut dice = Dice::of_case(seed, index);
        let book = damaged(seed, 100 * (index / 16 % 3) + 10 + dice.below(90));
        with_rooms(&mut dice, book)
    })
}

/// Stored: those of before kind 9.
pub fn stored() -> Vec<Case> {
    stored_of(Seed::up_to(kind::CLOSE, 2), (0..20).chain(200..210))
}

/// Damaged books with each room that matters, for the book and for the list.
pub fn stored_of(seed: Seed, indices: impl Iterator<Item = u64>) -> Vec<Case> {
    let mut cases = Vec::new();
    for index in indices {
        let book = damaged(seed, index);
        if book.len() > 1_200 {
            continue;
        }
        let (enough, all) =
            salvage(&book, usize::MAX, usize::MAX).map_or((6, 9), |(b, l)| (b.len(), l.len()));
        let less = |n: usize| n.saturating_sub(1);
        for (book_room, list_room) in [
            (enough, all),
            (enough + 1, all + 8),
            (less(enough), all),
            (enough, less(all)),
            (less(enough), less(all)),
            (0, 0),
            (16_384, MOST_LIST),
        ] {
            cases.push(Case::Damaged { book: book.clone(), book_room, list_room });
        }
    }
    cases
}
