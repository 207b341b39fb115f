//! Pairs of books by chance, a book and a copy with up to twenty edits in any place.

use crate::makers::books::{after, closed_run, right_values};
use crate::makers::dice::Dice;
use crate::makers::farms::closed;
use crate::makers::whole_books::book;
use crate::model::feed::{feed, Answer};
use crate::model::kind;
use crate::model::record::{fields_with, record_of, values_of};
use crate::model::state::{State, LARGE};
use crate::model::walk::records_of;

type Records = Vec<Vec<u8>>;

/// The close of a book, where it has one, with the right count.
fn counted(mut records: Records) -> Records {
    let before = records.len().saturating_sub(1) as u16;
    if let Some(last) = records.last_mut().filter(|last| last[3] == kind::CLOSE && last.len() == 6)
    {
        last[4..6].copy_from_slice(&before.to_be_bytes());
    }
    records
}

/// A farm record in the other version, with set 1's factors or set 1; any other record as it is.
fn of_other_version(record: &[u8]) -> Vec<u8> {
    match (record[2], record[3], record.len()) {
        (1, kind::FARM, 11) => [&[0, 12, 2, 1], &record[4..10], &[0, 21, 1, 54]].concat(),
        (2, kind::FARM, 14) => [&[0, 9, 1, 1], &record[4..10], &[1]].concat(),
        _ => record.to_vec(),
    }
}

/// One value of a record of a kind is another one of its range.
fn changed(dice: &mut Dice, record: &[u8]) -> Vec<u8> {
    let known = kind::ALL.contains(&record[3]) && matches!(record[2], 1 | 2);
    if !known || (record[2] == 2) != (record[3] == kind::FARM && record.len() == 14) {
        return record.to_vec();
    }
    let mut values: Vec<u64> = values_of(record).iter().map(|&v| v as u64).collect();
    let at = dice.below(values.len() as u64) as usize;
    let field = &fields_with(record[3], values.len())[at];
    let (low, high) = (u64::from(field.low), u64::from(field.high));
    values[at] = match dice.below(3) {
        0 => dice.edgy(low, high),
        1 => (values[at] + 1).min(high),
        _ => values[at].saturating_sub(1).max(low),
    };
    record_of(record[3], &values)
}

/// The places of the headings, and the end of the last group.
fn starts_of(records: &Records) -> Vec<usize> {
    let is_heading = |&at: &usize| records[at][3] == kind::HEADING;
    let last = records.len() - usize::from(records.last().is_some_and(|r| r[3] == kind::CLOSE));
    (0..records.len()).filter(is_heading).chain([last]).collect()
}

/// A record that fits where it is put, as those before it are accepted.
fn added(dice: &mut Dice, records: &mut Records, at: usize) {
    let state = after(&State::default(), &records[..at].concat());
    let kind = match (state.records, state.heading.class) {
        (0, _) => kind::FARM,
        (_, 0) => dice.of(&[kind::ENERGY, kind::SOIL, kind::TILLAGE]),
        (_, 4) => dice.of(&[kind::PIG, kind::PIG, kind::SOIL]),
        _ => dice.of(&[kind::ENTERIC, kind::CATTLE, kind::GRAZING, kind::ENERGY]),
    };
    records.insert(at, record_of(kind, &right_values(dice, &state, kind)));
}

/// A new heading with a ration, where a group begins or the last one ends.
fn group_added(dice: &mut Dice, records: &mut Records) {
    let at = dice.of(&starts_of(records));
    let state = after(&State::default(), &records[..at].concat());
    let heading = record_of(kind::HEADING, &[u64::from(state.heading.group) + 1, 1, 12]);
    records.insert(at, heading);
    added(dice, records, at + 1);
}

fn group_removed(dice: &mut Dice, records: &mut Records) {
    let starts = starts_of(records);
    if starts.len() > 1 {
        let at = dice.below(starts.len() as u64 - 1) as usize;
        records.drain(starts[at]..starts[at + 1]);
    }
}

/// A heading with another head, or any other value; now and then what stands under it in another order too.
fn heading_changed(dice: &mut Dice, records: &mut Records) {
    let starts = starts_of(records);
    if starts.len() < 2 {
        return;
    }
    let place = dice.below(starts.len() as u64 - 1) as usize;
    let at = starts[place];
    let of_length = records[at].len() == 9;
    if of_length && dice.below(3) > 0 {
        let head = dice.below(60) as u8;
        records[at][7..].copy_from_slice(&[0, head]);
    } else {
        records[at] = changed(dice, &records[at]);
    }
    if dice.one_in(3) {
        turned(dice, &mut records[at + 1..starts[place + 1]]);
    }
}

/// Some records in another order, all of them or some.
fn turned(dice: &mut Dice, run: &mut [Vec<u8>]) {
    match (run.len(), dice.below(3)) {
        (0 | 1, _) => (),
        (_, 0) => run.reverse(),
        (_, 1) => run.rotate_left(1),
        (count, _) => {
            run.swap(dice.below(count as u64) as usize, dice.below(count as u64) as usize)
        }
    }
}

/// What stands before the groups or under a heading in another order.
fn reordered(dice: &mut Dice, records: &mut Records) {
    let starts = starts_of(records);
    let place = dice.below(starts.len() as u64) as usize;
    let low = if place == 0 { 1 } else { starts[place - 1] + 1 };
    turned(dice, &mut records[low.min(starts[place])..starts[place]]);
}

/// One edit of a book's records in any place.
fn edited(dice: &mut Dice, mut records: Records) -> Records {
    let count = records.len() as u64;
    let (at, to) = (dice.below(count) as usize, dice.below(count) as usize);
    match dice.below(18) {
        0 | 1 => drop(records.remove(at)),
        2 => records.insert(at, records[to].clone()),
        3 | 4 => added(dice, &mut records, at),
        5..=7 => records[at] = changed(dice, &records[at]),
        8 => records.swap(at, to),
        9 => {
            let moved = records.remove(at);
            records.insert(to.min(records.len()), moved);
        }
        10 => group_added(dice, &mut records),
        11 => group_removed(dice, &mut records),
        12..=14 => heading_changed(dice, &mut records),
        15 => records[0] = changed(dice, &records[0]),
        16 if dice.one_in(2) => records[0] = of_other_version(&records[0]),
        _ => reordered(dice, &mut records),
    }
    records
}

fn is_closed(book: &[u8]) -> bool {
    feed(&State::default(), book, LARGE).answer == Answer::Closed
}

/// An edit that mostly leaves a closed book closed; now and then what is cut off, spoilt, or counted wrong.
fn edit(dice: &mut Dice, book: &[u8]) -> Vec<u8> {
    let rough = dice.one_in(40);
    if rough && !book.is_empty() && dice.one_in(2) {
        let mut spoilt = book.to_vec();
        let at = dice.below(book.len() as u64) as usize;
        match dice.below(2) {
            0 => spoilt.truncate(at),
            _ => spoilt[at] = dice.below(256) as u8,
        }
        return spoilt;
    }
    for _ in 0..30 {
        let records = records_of(book);
        if records.is_empty() {
            break;
        }
        let records = edited(dice, records);
        let new = if dice.one_in(60) { records.concat() } else { counted(records).concat() };
        if rough || !is_closed(book) || is_closed(&new) {
            return new;
        }
    }
    book.to_vec()
}

/// A book and an edited copy of it, or the copy first.
pub fn pair(seed: u64, index: u64) -> (Vec<u8>, Vec<u8>) {
    let mut dice = Dice::of_case(seed ^ 0x5157, index);
    let dice = &mut dice;
    let old = match index % 16 {
        7 => book(seed, 15 + dice.below(6)),
        3 | 11 => book(seed, 25 + index),
        5 => closed_run(dice, &State::default(), 30),
        _ => closed(dice, 8),
    };
    let most = dice.of(&[1, 2, 3, 20]);
    let mut new = old.clone();
    let fewest = u64::from(!dice.one_in(12));
    let edits = if index % 16 == 7 { dice.below(3) } else { dice.between(fewest, most) };
    for _ in 0..edits {
        new = edit(dice, &new);
    }
    if dice.one_in(3) {
        return (new, old);
    }
    (old, new)
}
