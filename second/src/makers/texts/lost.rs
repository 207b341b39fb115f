//! Headings that are lost, and the runs of rations after them.

use super::cells::{line_of, padded, Cells};
use super::closes::some_close;
use super::mistakes::{mistyped_heading, NO_KINDS, OTHER_KINDS};
use super::{farm_line, joined, some_no_record};
use crate::makers::dice::Dice;
use crate::makers::plain::plain_values;
use crate::model::kind;
use crate::model::record::record_of;
use crate::model::state::{Heading, State};

/// Groups, most of whose headings are lost, each with a run behind it.
pub fn lost_headings(dice: &mut Dice) -> Vec<u8> {
    let mut lines = Vec::new();
    if !dice.one_in(8) {
        lines.push(farm_line(dice).trim_end().as_bytes().to_vec());
    }
    for group in 1..=dice.between(1, 5) {
        if dice.one_in(3) {
            lines.push(right_heading(dice, group));
        }
        if dice.one_in(3) {
            lines.extend(run(dice, group));
        }
        lines.push(losing(dice, group));
        lines.extend(run(dice, group));
    }
    if dice.one_in(2) {
        lines.push(right_heading(dice, 9));
        lines.push(detail(dice));
    }
    if !dice.one_in(4) {
        lines.push(some_close(dice, 3));
    }
    let end = dice.of::<&[u8]>(&[b"\n", b"\r\n"]);
    joined(dice, end, &lines)
}

fn right_heading(dice: &mut Dice, group: u64) -> Vec<u8> {
    let record = record_of(kind::HEADING, &[group, dice.between(1, 4), dice.below(60)]);
    line_of(dice, Cells::Loose, &record)
}

/// A line that loses the heading, whatever sort of it.
fn losing(dice: &mut Dice, group: u64) -> Vec<u8> {
    let heading = Heading { group: group as u16, ..Heading::default() };
    match dice.below(8) {
        0 => [dice.of(&NO_KINDS), b" 2 dry 14"].concat(),
        1 => dice.of(&NO_KINDS).to_vec(),
        2 => [dice.of(&OTHER_KINDS), b" 2 dry 14"].concat(),
        3 => padded(dice, b"soil 5".to_vec(), &[1_024, 3_000]),
        _ => mistyped_heading(dice, &State { heading, ..State::default() }).join(&b' '),
    }
}

/// Rations and grazing, with blank lines and comments between them, and now and then a line that ends the run.
fn run(dice: &mut Dice, group: u64) -> Vec<Vec<u8>> {
    let mut lines = Vec::new();
    for _ in 0..dice.of(&[0, 1, 1, 2, 5, 9]) {
        let line = match dice.below(24) {
            0..=13 => detail(dice),
            14..=18 => some_no_record(dice),
            19 | 20 => of_farm(dice),
            21 => b"enteric 31 300,5 6.5".to_vec(),
            22 => some_close(dice, 3),
            _ => losing(dice, group),
        };
        lines.push(line);
    }
    lines
}

/// A line of a kind that stands under a heading, right or not.
fn detail(dice: &mut Dice) -> Vec<u8> {
    let kind = dice.of(&[kind::ENTERIC, kind::ENTERIC, kind::CATTLE, kind::PIG, kind::GRAZING]);
    if dice.one_in(6) {
        return dice.of::<&[u8]>(&[b"enteric", b"4 1", b"pig 367 1", b"grazing ontario"]).to_vec();
    }
    line_of(dice, Cells::Plain, &record_of(kind, &plain_values(kind)))
}

/// A line of the farm's own.
fn of_farm(dice: &mut Dice) -> Vec<u8> {
    let kind = dice.of(&[kind::ENERGY, kind::SOIL, kind::TILLAGE]);
    line_of(dice, Cells::Plain, &record_of(kind, &plain_values(kind)))
}
