//! Values for typed texts: mostly such as a farm has, and those beside them.

use crate::makers::books::right_record;
use crate::makers::dice::Dice;
use crate::model::figures::x_of;
use crate::model::kind;
use crate::model::record::{fields_with, record_of, values_of};
use crate::model::state::State;
use crate::model::usual::usual_at;

/// Usual values alone, unusual ones among them, or any that are right.
#[derive(Clone, Copy, PartialEq, Eq)]
pub enum Values {
    Usual,
    Mostly,
    Any,
}

/// A right record; a whole year of days now and then, and a year that is known.
pub fn some_record(dice: &mut Dice, state: &State, year: u64, values: Values) -> Vec<u8> {
    let record = right_record(dice, state);
    let kind = record[3];
    let mut v: Vec<u64> = values_of(&record).into_iter().map(|value| value as u64).collect();
    if kind == kind::FARM {
        v[1] = year;
    }
    let first = kind::WITH_DAYS.contains(&kind) && state.heading.days[kind::days_at(kind)] == 0;
    if first && dice.one_in(3) {
        v[0] = dice.of(&[365, 366]);
    }
    if values != Values::Any {
        make_usual(dice, kind, state.heading.class, &mut v);
    }
    if values == Values::Mostly && dice.one_in(6) {
        make_unusual(dice, kind, state.heading.class, &mut v);
    }
    record_of(kind, &v)
}

/// Draws each value anew that has a usual range, its ends more often than others, so that a record of cattle stays right.
fn make_usual(dice: &mut Dice, kind: u8, class: u8, v: &mut [u64]) {
    for _ in 0..20 {
        draw_usual(dice, kind, class, v);
        if stays_right(kind, v) {
            return;
        }
    }
    // Plenty of feed for no more milk and gain than is usual.
    v[1] = usual_at(kind, class, v, 1).expect("feed has a usual range").high;
    v[2] = usual_at(kind, class, v, 2).expect("protein has a usual range").high;
    v[3] = usual_at(kind, class, v, 3).expect("milk has a usual range").low;
    v[4] = 300;
    v[5] = 0;
}

fn draw_usual(dice: &mut Dice, kind: u8, class: u8, v: &mut [u64]) {
    for place in 0..v.len() {
        if let Some(usual) = usual_at(kind, class, v, place) {
            v[place] = dice.edgy(usual.low, usual.high);
        }
    }
    if kind == kind::PIG {
        v[10] = v[10].min(1_000 - v[8]);
    }
}

/// Whether refusals 10 of pigs and 11 spare these values.
fn stays_right(kind: u8, v: &[u64]) -> bool {
    let wide: Vec<u128> = v.iter().map(|&value| u128::from(value)).collect();
    match kind {
        kind::CATTLE => x_of(&wide) >= 0,
        kind::PIG => v[8] + v[10] <= 1_000,
        _ => true,
    }
}

/// One of the values goes to an end of its usual range, beside it, or anywhere, where the record stays right.
fn make_unusual(dice: &mut Dice, kind: u8, class: u8, v: &mut [u64]) {
    let places: Vec<usize> =
        (0..v.len()).filter(|&place| usual_at(kind, class, v, place).is_some()).collect();
    if places.is_empty() {
        return;
    }
    let place = dice.of(&places);
    let old = v[place];
    let near = around_usual(kind, class, v, place);
    let field = &fields_with(kind, v.len())[place];
    let any = dice.edgy(field.low.into(), field.high.into());
    v[place] = if dice.one_in(4) { any } else { dice.of(&near) };
    if !stays_right(kind, v) {
        v[place] = old;
    }
}

/// Both ends of a usual range, and the values next to them that the field has.
pub fn around_usual(kind: u8, class: u8, v: &[u64], place: usize) -> Vec<u64> {
    let usual = usual_at(kind, class, v, place).expect("the field has a usual range");
    let field = &fields_with(kind, v.len())[place];
    let mut near = vec![usual.low, usual.high];
    if usual.low > u64::from(field.low) {
        near.push(usual.low - 1);
    }
    if usual.high < u64::from(field.high) {
        near.push(usual.high + 1);
    }
    near
}
