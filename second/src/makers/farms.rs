//! A farm's book by chance, as an office has it: several groups with their rations, the farm's own records among them; and what may go wrong with it.

use crate::makers::books::{damaged_run, right_close, right_values, some_farm};
use crate::makers::damages::damaged;
use crate::makers::desk::many_groups;
use crate::makers::dice::Dice;
use crate::makers::doubts::doubtful;
use crate::makers::plain::sample;
use crate::model::feed::{feed, Answer};
use crate::model::kind;
use crate::model::record::record_of;
use crate::model::state::{State, LARGE};

/// A book that grows by what is accepted after it.
struct Growing {
    bytes: Vec<u8>,
    state: State,
}

impl Growing {
    fn take(&mut self, record: Vec<u8>) {
        let reply = feed(&self.state, &record, LARGE);
        if !matches!(reply.answer, Answer::Refused(_)) {
            (self.state, self.bytes) = (reply.state, [&self.bytes[..], &record].concat());
        }
    }

    fn started(dice: &mut Dice) -> Growing {
        let mut book = Growing { bytes: Vec::new(), state: State::default() };
        book.take(some_farm(dice));
        book
    }

    fn closed(self) -> Vec<u8> {
        [self.bytes, right_close(&self.state)].concat()
    }
}

/// The farm's own records that a book may have: any, none, tillage that takes up and nothing else, or some grams of energy.
#[derive(Clone, Copy, PartialEq, Eq)]
enum Own {
    Any,
    None,
    TakesUp,
    Grams,
}

fn own_record(dice: &mut Dice, state: &State, own: Own) -> Option<Vec<u8>> {
    match own {
        Own::None => None,
        Own::Any => {
            let kind = dice.of(&[kind::ENERGY, kind::SOIL, kind::TILLAGE]);
            Some(record_of(kind, &right_values(dice, state, kind)))
        }
        Own::Grams => Some(record_of(kind::ENERGY, &[1, dice.below(50), dice.below(100)])),
        Own::TakesUp => {
            let mut values = right_values(dice, state, kind::TILLAGE);
            (values[2], values[3]) = (dice.between(1, 3), dice.between(1, 5));
            Some(record_of(kind::TILLAGE, &values))
        }
    }
}

/// A heading, mostly of a herd as farms have it, and up to nine rations under it.
fn add_group(dice: &mut Dice, book: &mut Growing, own: Own) {
    let group = u64::from(book.state.heading.group) + dice.between(1, 9);
    let class = dice.between(1, 4);
    let head = match dice.below(4) {
        0 => dice.edgy(0, 20_000),
        1 => dice.below(9), // where a half of a gram a head is common
        _ => dice.below(200),
    };
    book.take(record_of(kind::HEADING, &[group, class, head]));
    for _ in 0..dice.below(10) {
        if dice.one_in(5) {
            own_record(dice, &book.state, own).into_iter().for_each(|record| book.take(record));
            continue;
        }
        let kind = match class {
            4 => kind::PIG,
            _ => {
                dice.of(&[kind::ENTERIC, kind::ENTERIC, kind::CATTLE, kind::CATTLE, kind::GRAZING])
            }
        };
        book.take(record_of(kind, &right_values(dice, &book.state, kind)));
    }
}

fn open_book(dice: &mut Dice, groups: u64, own: Own) -> Growing {
    let mut book = Growing::started(dice);
    for _ in 0..dice.below(4) {
        own_record(dice, &book.state, own).into_iter().for_each(|record| book.take(record));
    }
    for _ in 0..groups {
        add_group(dice, &mut book, own);
    }
    book
}

/// A closed book of up to so many groups.
pub fn closed(dice: &mut Dice, most: u64) -> Vec<u8> {
    let groups = dice.between(0, most);
    let own = dice.of(&[Own::Any, Own::Any, Own::None, Own::TakesUp, Own::Grams]);
    open_book(dice, groups, own).closed()
}

/// The farm's book of this seed and index: mostly closed; also with bytes after it, cut, refused, damaged, of 4,094 headings, of no bytes.
pub fn farm(seed: u64, index: u64) -> Vec<u8> {
    let mut dice = Dice::of_case(seed ^ 0x4641_524d, index);
    let dice = &mut dice;
    match (index, index % 20) {
        (0, _) => sample(),
        (1, _) => Vec::new(),
        (2, _) => many_groups(4_094),
        (_, 0) => open_book(dice, 40, Own::Any).closed(),
        (_, 1) => open_book(dice, 0, Own::Any).closed(),
        (_, 2) => open_book(dice, 5, Own::TakesUp).closed(),
        (_, 3) => [closed(dice, 4), vec![0, 9, 1]].concat(),
        (_, 4) => open_book(dice, 6, Own::Any).bytes,
        (_, 5) => cut(dice, 6),
        (_, 6..=8) => wrong(dice, seed, index),
        (_, 9) => open_book(dice, 0, Own::None).closed(),
        (_, 10) => open_book(dice, 0, Own::Grams).closed(),
        _ => closed(dice, 12),
    }
}

fn cut(dice: &mut Dice, most: u64) -> Vec<u8> {
    let mut book = closed(dice, most);
    book.truncate(dice.below(book.len() as u64) as usize);
    book
}

/// Refused by a number of 1 to 12, damaged, or doubtful.
fn wrong(dice: &mut Dice, seed: u64, index: u64) -> Vec<u8> {
    match index % 20 {
        6 => damaged(seed, index),
        7 => doubtful(seed, index),
        _ => {
            let book = open_book(dice, 5, Own::Any);
            let number = dice.between(1, 12) as u8;
            [book.bytes, damaged_run(dice, &book.state, number)].concat()
        }
    }
}
