//! Slips by chance, and slips at and beside every end of every range.

use crate::makers::dice::Dice;
use crate::makers::trial::Case;
use crate::model::slip::{Change, Ration};

const GE: (f64, f64) = (1.0, 1000.0);
const YM: (f64, f64) = (0.5, 20.0);
const HEAD: (f64, f64) = (1.0, 20000.0);
const FACTOR: (f64, f64) = (0.5, 2.0);

/// Doubles that are in no range: no numbers, infinities, zeros, subnormals, negative and huge ones.
const ODD: [u64; 14] = [
    0,
    1,
    0x000F_FFFF_FFFF_FFFF,
    0x0010_0000_0000_0000,
    0x7FEF_FFFF_FFFF_FFFF,
    0x7FF0_0000_0000_0000,
    0x7FF0_0000_0000_0001,
    0x7FF8_0000_0000_0000,
    0x7FFF_FFFF_FFFF_FFFF,
    0x8000_0000_0000_0000,
    0x8000_0000_0000_0001,
    0xBFF0_0000_0000_0000,
    0xFFF0_0000_0000_0000,
    0xFFF8_0000_0000_0000,
];

const DAYS: [u16; 9] = [0, 1, 2, 31, 365, 366, 367, 32_768, 65_535];

/// The double so many steps above, or below, a positive one.
fn steps(x: f64, by: i64) -> f64 {
    f64::from_bits(x.to_bits().wrapping_add_signed(by))
}

fn ends((low, high): (f64, f64)) -> [f64; 6] {
    [steps(low, -1), low, steps(low, 1), steps(high, -1), high, steps(high, 1)]
}

fn inside(dice: &mut Dice, (low, high): (f64, f64)) -> f64 {
    let part = dice.roll() as f64 / u64::MAX as f64;
    match dice.below(4) {
        0 => (low + part * (high - low)).round().clamp(low, high),
        1 => dice.of(&ends((low, high))).clamp(low, high),
        _ => (low + part * (high - low)).clamp(low, high),
    }
}

/// Mostly inside the range, now and then at its ends, beside them, or anywhere.
fn some_double(dice: &mut Dice, range: (f64, f64)) -> f64 {
    match dice.below(24) {
        0 => dice.of(&ends(range)),
        1 => f64::from_bits(dice.of(&ODD)),
        2 => f64::from_bits(dice.roll()),
        _ => inside(dice, range),
    }
}

/// A value that the factor takes to within a few steps of one of the range's ends.
fn to_an_end(dice: &mut Dice, (low, high): (f64, f64), factor: f64) -> f64 {
    let end = if factor < 1.0 { low } else { high };
    let by = dice.below(9) as i64 - 4;
    steps(end / factor, by)
}

pub fn some_slip(dice: &mut Dice) -> Case {
    let days = if dice.one_in(12) { dice.of(&DAYS) } else { dice.between(1, 366) as u16 };
    let mut ration = Ration {
        ge: some_double(dice, GE),
        ym: some_double(dice, YM),
        head: some_double(dice, HEAD),
        days,
    };
    let factor = some_double(dice, FACTOR);
    let near = dice.one_in(4) && (0.5..=2.0).contains(&factor);
    let change = match dice.below(3) {
        0 => Change::Feed(factor),
        1 => Change::Ym(some_double(dice, YM)),
        _ => Change::Head(factor),
    };
    match change {
        Change::Feed(_) if near => ration.ge = to_an_end(dice, GE, factor),
        Change::Head(_) if near => ration.head = to_an_end(dice, HEAD, factor),
        _ => (),
    }
    Case::Slip { ration, change }
}

fn plain() -> Ration {
    Ration { ge: 300.0, ym: 6.5, head: 40.0, days: 31 }
}

fn case(ration: Ration, change: Change) -> Case {
    Case::Slip { ration, change }
}

/// Every number of a ration and of a change, at and beside the ends of its range, and the odd doubles.
pub fn at_the_ends() -> Vec<Case> {
    let change = Change::Feed(1.1);
    let mut cases = Vec::new();
    for days in DAYS {
        cases.push(case(Ration { days, ..plain() }, change));
    }
    let odd = ODD.map(f64::from_bits);
    for ge in ends(GE).into_iter().chain(odd) {
        cases.push(case(Ration { ge, ..plain() }, Change::Ym(7.0)));
    }
    for ym in ends(YM).into_iter().chain(odd) {
        cases.push(case(Ration { ym, ..plain() }, change));
    }
    for head in ends(HEAD).into_iter().chain(odd) {
        cases.push(case(Ration { head, ..plain() }, change));
    }
    for factor in ends(FACTOR).into_iter().chain(odd) {
        cases.push(case(plain(), Change::Feed(factor)));
        cases.push(case(plain(), Change::Head(factor)));
    }
    for ym in ends(YM).into_iter().chain(odd) {
        cases.push(case(plain(), Change::Ym(ym)));
    }
    cases.extend(changed_to_the_ends());
    cases
}

/// Changes that lead just to an end of a range, and just past it: refusal 15.
fn changed_to_the_ends() -> Vec<Case> {
    let mut cases = Vec::new();
    for by in [-1, 0, 1] {
        for (factor, ge, head) in [(0.5, 2.0, 2.0), (2.0, 500.0, 10000.0)] {
            cases.push(case(Ration { ge: steps(ge, by), ..plain() }, Change::Feed(factor)));
            cases.push(case(Ration { head: steps(head, by), ..plain() }, Change::Head(factor)));
        }
    }
    cases
}
