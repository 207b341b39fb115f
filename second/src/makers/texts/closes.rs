//! Closes at the end of a text, before it, twice, or not at all.

use super::cells::{line_of, Cells};
use super::mistakes::NO_KINDS;
use super::values::{some_record, Values};
use super::{farm_line, joined, some_no_record};
use crate::makers::books::{after, right_record};
use crate::makers::dice::Dice;
use crate::model::state::{State, OPEN};

/// A close in one of the ways it is typed, most of them right after so many records.
pub fn some_close(dice: &mut Dice, records: u16) -> Vec<u8> {
    let word = dice.of(&["close", "close", "close", "CLOSE", "Close", "8"]);
    let line = match dice.below(18) {
        0..=5 => word.to_string(),
        6..=9 => format!("{word} {records}"),
        10 => format!("  {word}\t000{records} # counted"),
        11..=13 => format!("{word} {}", dice.of(&[records + 1, records.saturating_sub(1), 0])),
        14 => format!("{word} {records} {}", dice.of(&["hay", "1", "and no more"])),
        15 => format!("{word} {}", dice.of(&["x", "5.0", "-1", "now 3", "3,"])),
        16 => format!("{word} {}", dice.of(&["65535", "65536", "99999999999999999999"])),
        _ => format!("{word} \t # the end"),
    };
    line.into_bytes()
}

/// The close, or none; then, now and then, lines behind it. A text without a mistake mostly ends rightly.
pub fn ending(dice: &mut Dice, state: &State, close: &[u8], right: bool) -> Vec<Vec<u8>> {
    let mut lines = match dice.below(12) {
        0 => Vec::new(),
        1 => vec![some_close(dice, state.records)],
        2 => vec![b"close".to_vec(), some_close(dice, state.records)],
        3..=6 => vec![close.to_vec()],
        _ => vec![dice.of::<&[u8]>(&[b"close", b"CLOSE", b"8", b"  Close # counted"]).to_vec()],
    };
    while dice.one_in(3) {
        lines.push(some_no_record(dice));
    }
    if dice.one_in(if right { 16 } else { 6 }) {
        for _ in 0..dice.between(1, 4) {
            let record = right_record(dice, state);
            lines.push(line_of(dice, Cells::Plain, &record));
            if dice.one_in(3) {
                lines.push(dice.of(&NO_KINDS).to_vec());
            }
        }
    }
    lines
}

/// A short book with closes anywhere: before the farm record, between others, behind failed lines, one after the other, and at the end.
pub fn closes(dice: &mut Dice) -> Vec<u8> {
    let mut lines = Vec::new();
    if dice.one_in(8) {
        lines.push(some_close(dice, 0));
    }
    let mut state = State::default();
    let often = dice.of(&[2, 4, 12]);
    for _ in 0..dice.between(1, 10) {
        let record = some_record(dice, &state, 2010, Values::Usual);
        state = after(&state, &record);
        lines.push(line_of(dice, Cells::Plain, &record));
        if dice.one_in(12) {
            lines.push(dice.of::<&[u8]>(&[b"soil", b"headng", b"soil x", b"77"]).to_vec());
        }
        if state.stage == OPEN && dice.one_in(often) {
            lines.push(some_close(dice, state.records));
        }
        if dice.one_in(4) {
            lines.push(some_no_record(dice));
        }
    }
    if !dice.one_in(5) {
        lines.push(some_close(dice, state.records));
    }
    if dice.one_in(10) {
        lines.push(farm_line(dice).trim_end().as_bytes().to_vec());
    }
    joined(dice, b"\n", &lines)
}
