//! Texts that go through a kind's fields one by one, and groups whose gas a head is an exact half.

use super::cells::{as_general, line_of, Cells};
use super::farm_line;
use super::values::around_usual;
use crate::makers::dice::Dice;
use crate::makers::plain::{plain_rows, plain_values};
use crate::model::fields::{spoken_of, Spoken};
use crate::model::figures::{enteric, pig};
use crate::model::kind;
use crate::model::record::{fields_with, record_of, Field};
use crate::model::usual::usual_at;
use crate::model::words::kind_name;

type Wrong = fn(&Spoken, &Field) -> String;

/// In its place, a line of a row's kind for each of its fields with that field's word wrong, and one with such a word behind them.
pub fn each_field(row: usize, turn: u64) -> Vec<u8> {
    let wrong: [Wrong; 5] = [too_many_decimals, above, below, with_comma, no_word];
    let wrong = wrong[turn as usize % wrong.len()];
    let (kind, values) = plain_rows().swap_remove(row);
    let class = if kind == kind::PIG { "pig" } else { "milking" };
    let mut text = match kind {
        kind::FARM => String::new(),
        kind::HEADING => "farm 7 2012 1\n".to_string(),
        _ => format!("farm 7 2012 1\nheading 1 {class} 40\n"),
    };
    let (spoken, fields) = (spoken_of(kind.into(), values.len()), fields_with(kind, values.len()));
    for place in 0..=values.len() {
        let said = spoken.iter().zip(&values).map(|(field, &value)| field.typed(value.into()));
        let mut words: Vec<String> = said.collect();
        match fields.get(place) {
            Some(field) => words[place] = wrong(&spoken[place], field),
            None => words.push("5.".to_string()),
        }
        text += &format!("{} {}\n", kind_name(kind.into()), words.join(" "));
    }
    text += "close\n";
    text.into_bytes()
}

/// A decimal more than the field has.
fn too_many_decimals(spoken: &Spoken, _: &Field) -> String {
    format!("0.{}", "5".repeat(spoken.decimals + 1))
}

/// The value next above the field's range.
fn above(spoken: &Spoken, field: &Field) -> String {
    as_general(&spoken.said(u128::from(field.high) + 1))
}

/// The value next below the field's range, where there is one, or below zero.
fn below(spoken: &Spoken, field: &Field) -> String {
    match field.low {
        0 => format!("-{}", spoken.said(1)),
        low => spoken.said(u128::from(low) - 1),
    }
}

/// A comma in place of the point, before as many decimals as the field has.
fn with_comma(spoken: &Spoken, _: &Field) -> String {
    format!("0,{}", "5".repeat(spoken.decimals.max(1)))
}

/// A word of no field.
fn no_word(_: &Spoken, _: &Field) -> String {
    "hay".to_string()
}

/// A kind's usual ranges under each heading that it has, a line for each field at an end or beside it; closed.
pub fn usual_ends(dice: &mut Dice, which: u64) -> Vec<u8> {
    let (kind, class) =
        [(3, 1), (4, 1), (5, 4), (10, 3), (3, 2), (4, 2), (3, 3), (4, 3)][which as usize % 8];
    let mut text = farm_line(dice).into_bytes();
    let cells = dice.of(&[Cells::Plain, Cells::Sheet]);
    let heads = dice.of(&[0, 1, 40]);
    text.extend(line_of(dice, cells, &record_of(kind::HEADING, &[12, class, heads])));
    text.push(b'\n');
    for _ in 0..dice.of(&[1, 1, 2, 5]) {
        for place in 1..plain_values(kind).len() {
            let values = beside_usual(dice, kind, class as u8, place);
            text.extend(line_of(dice, cells, &record_of(kind, &values)));
            text.push(b'\n');
        }
    }
    text.extend(b"close\n");
    text
}

/// Right values of a kind for a day, or without a fraction; the one at this place at an end of its usual range or next to it.
fn beside_usual(dice: &mut Dice, kind: u8, class: u8, place: usize) -> Vec<u64> {
    let mut values = match kind {
        kind::ENTERIC => vec![1, 30_000, 650],
        kind::CATTLE if class == 1 => vec![1, 2_000, 2_000, 3_000, 320, 0, 2_000, 8_000, 0],
        kind::CATTLE => vec![1, 1_500, 2_000, 0, 700, 100, 2_000, 8_000, 0],
        kind::PIG => vec![1, 200, 1_000, 1_000, 200, 1_800, 1_000, 200, 250, 1_000, 0, 0],
        _ => vec![3, dice.between(1, 3), 350, 0],
    };
    if usual_at(kind, class, &values, place).is_some() {
        values[place] = dice.of(&around_usual(kind, class, &values, place));
    }
    values
}

/// Small groups whose CH4 a head is a half of a tenth of a kilogram, which goes to the even tenth; closed.
pub fn halves(dice: &mut Dice) -> Vec<u8> {
    let mut text = farm_line(dice);
    for group in 1..=dice.between(1, 6) {
        let head = dice.of(&[1, 2, 3, 4, 5, 8]);
        let pigs = dice.one_in(3);
        let class = if pigs { "pig" } else { dice.of(&["milking", "dry", "heifer"]) };
        text += &format!("heading {group} {class} {head}\n");
        let kind = if pigs { kind::PIG } else { kind::ENTERIC };
        let values = half_values(dice, kind, head);
        let words: Vec<String> = spoken_of(kind.into(), values.len())
            .iter()
            .zip(values)
            .map(|(field, value)| as_general(&field.said(value)))
            .collect();
        text += &format!("{} {}\n", kind_name(kind.into()), words.join(" "));
    }
    text += "close\n";
    text.into_bytes()
}

/// Values that give an exact half, or the last that were tried.
fn half_values(dice: &mut Dice, kind: u8, head: u128) -> Vec<u128> {
    let mut values: Vec<u128> = plain_values(kind).into_iter().map(u128::from).collect();
    for _ in 0..5_000 {
        values[0] = dice.between(1, 366).into();
        values[1] = dice.between(30, if kind == kind::PIG { 800 } else { 60_000 }).into();
        let made = if kind == kind::PIG { pig(head, &values) } else { enteric(head, &values) };
        if u128::from(made.ch4) % (100 * head) == 50 * head {
            break;
        }
    }
    values
}
