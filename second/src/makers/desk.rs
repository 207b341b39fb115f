//! Books for the C host: a line each of book, room, the herd desk's number, and the lines.

use crate::makers::books::{closed_run, damaged_run, right_run};
use crate::makers::calls::ROOMS;
use crate::makers::dice::Dice;
use crate::makers::halves::{Half, RECORDS};
use crate::makers::plain::{field_end_records, plain_rows, plain_values, sample, several_groups};
use crate::makers::states::FACTORS;
use crate::makers::trial::hex;
use crate::makers::warmings::with_farm;
use crate::model::feed::herd_desk;
use crate::model::kind;
use crate::model::record::record_of;
use crate::model::state::State;

/// The lines of one book, with many rooms, among them just enough and one byte less.
pub fn book_text(dice: &mut Dice, book: &[u8]) -> String {
    let enough = herd_desk(book, 1 << 20).1.len();
    let mut rooms = ROOMS.to_vec();
    rooms.extend([
        8_192,
        enough,
        enough + 1,
        enough.saturating_sub(1),
        dice.below(enough as u64 + 1) as usize,
    ]);
    rooms.sort_unstable();
    rooms.dedup();
    rooms.iter().map(|&room| desk_line(book, room)).collect()
}

fn desk_line(book: &[u8], room: usize) -> String {
    let (number, lines) = herd_desk(book, room);
    format!("{} {room:x} {number:x} {}\n", hex(book), hex(&lines))
}

/// The book of this seed and index: the sample, no bytes, several groups, then right, damaged, unfinished and trailing ones.
pub fn some_book(dice: &mut Dice, index: u64) -> Vec<u8> {
    let start = State::default();
    let count = dice.between(1, 12);
    match index {
        0 => sample(),
        1 => Vec::new(),
        2 => several_groups(),
        3..=14 => damaged_run(dice, &start, index as u8 - 2),
        _ => match dice.below(6) {
            0 | 1 => closed_run(dice, &start, count),
            2 => right_run(dice, &start, count),
            3 => [closed_run(dice, &start, count), vec![0; count as usize]].concat(),
            4 => cut(dice, closed_run_of(count)),
            _ => {
                let number = dice.between(1, 12) as u8;
                damaged_run(dice, &start, number)
            }
        },
    }
}

/// A book for each field of each kind at its ends and outside them, a line each with room for all.
pub fn field_end_text() -> String {
    let mut text = String::new();
    for (kind, plain) in plain_rows() {
        let place = match kind {
            kind::FARM => Vec::new(),
            kind::HEADING => record_of(kind::FARM, &plain_values(kind::FARM)),
            _ => {
                let class = if kind == kind::PIG { 4 } else { 1 };
                [
                    record_of(kind::FARM, &plain_values(kind::FARM)),
                    record_of(kind::HEADING, &[5, class, 12]),
                ]
                .concat()
            }
        };
        for record in field_end_records(kind, &plain) {
            text += &desk_line(&[place.clone(), record].concat(), 1_000);
        }
    }
    text
}

/// A closed book for each pair of factors, a line each.
pub fn factors_text() -> String {
    let book = |pair| with_farm(pair, &several_groups());
    FACTORS.into_iter().map(|pair| desk_line(&book(pair), 2_000)).collect()
}

/// A closed book for each figure that comes to an exact half, a line each.
pub fn half_text() -> String {
    let book = |&(class, head, kind, values): &Half| {
        let farm = record_of(kind::FARM, &plain_values(kind::FARM));
        let heading = record_of(kind::HEADING, &[5, class.into(), head.into()]);
        [farm, heading, record_of(kind, values), record_of(kind::CLOSE, &[3])].concat()
    };
    RECORDS.iter().map(|half| desk_line(&book(half), 1_000)).collect()
}

/// A book made by dice of its own.
fn closed_run_of(count: u64) -> Vec<u8> {
    closed_run(&mut Dice::of_case(count, 0), &State::default(), count)
}

fn cut(dice: &mut Dice, mut book: Vec<u8>) -> Vec<u8> {
    book.truncate(dice.below(book.len() as u64) as usize);
    book
}

/// So many soil records between the farm and a right close.
pub fn long_book(details: u64) -> Vec<u8> {
    long_book_of(details, |i| record_of(kind::SOIL, &[i]))
}

/// So many headings between the farm and a right close, without a ration under any.
pub fn many_groups(groups: u64) -> Vec<u8> {
    long_book_of(groups, |i| record_of(kind::HEADING, &[i + 1, 1, i]))
}

fn long_book_of(count: u64, record: impl Fn(u64) -> Vec<u8>) -> Vec<u8> {
    let mut book = record_of(kind::FARM, &[7, 2010, 2]);
    for i in 0..count {
        book.extend(record(i));
    }
    book.extend(record_of(kind::CLOSE, &[count + 1]));
    book
}
