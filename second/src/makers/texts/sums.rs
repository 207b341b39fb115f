//! Days, shares, parts, fractions and nitrogen that go together, or just not.

use super::cells::{line_of, Cells};
use super::{farm_line, joined};
use crate::makers::dice::Dice;
use crate::makers::plain::plain_values;
use crate::model::kind;
use crate::model::record::record_of;

/// A few groups whose records are right each for itself.
pub fn sums(dice: &mut Dice) -> Vec<u8> {
    let mut lines = vec![farm_line(dice).trim_end().as_bytes().to_vec()];
    let cells = dice.of(&[Cells::Plain, Cells::Sheet]);
    for group in 1..=dice.between(1, 3) {
        let class = dice.between(1, 4);
        lines.push(line_of(dice, cells, &record_of(kind::HEADING, &[group, class, 40])));
        for _ in 0..dice.between(1, 6) {
            let record = if class == 4 { some_pigs(dice) } else { some_cattle(dice) };
            lines.push(line_of(dice, cells, &record));
        }
    }
    lines.push(b"close".to_vec());
    joined(dice, b"\n", &lines)
}

/// Few days or many, so that a year is passed now and then.
fn some_days(dice: &mut Dice) -> u64 {
    dice.of(&[1, 31, 90, 182, 183, 184, 335, 365, 366])
}

/// A volatilised and a leached part of which the sum is at its end, beside it, or anywhere.
fn some_pigs(dice: &mut Dice) -> Vec<u8> {
    let mut v = plain_values(kind::PIG);
    v[0] = some_days(dice);
    v[8] = dice.edgy(0, 1_000);
    let rest = 1_000 - v[8];
    let any = dice.of(&[0, 700, 1_000]);
    v[10] = dice.of(&[rest, rest, (rest + 1).min(1_000), any]);
    record_of(kind::PIG, &v)
}

fn some_cattle(dice: &mut Dice) -> Vec<u8> {
    match dice.below(4) {
        0 => record_of(kind::ENTERIC, &[some_days(dice), 30_000, 650]),
        1 => {
            let fraction = dice.of(&[0, 1, 2_500, 5_000, 5_001, 9_999, 10_000]);
            record_of(kind::GRAZING, &[dice.between(1, 7), 1, 600, fraction])
        }
        2 => record_of(kind::CATTLE, &shared(dice)),
        _ => {
            let mut v = shared(dice);
            v[1..6].copy_from_slice(dice.of(&[
                &[157, 1, 160, 1, 0],
                &[52, 1, 53, 1, 0],
                &[675, 1, 0, 0, 4],
                &[675, 1, 0, 0, 5],
            ]));
            record_of(kind::CATTLE, &v)
        }
    }
}

/// Values of a cattle record whose shares make the whole, or nearly.
fn shared(dice: &mut Dice) -> Vec<u64> {
    let mut v = plain_values(kind::CATTLE);
    v[0] = some_days(dice);
    v[6] = dice.edgy(0, 10_000);
    v[7] = dice.edgy(0, 10_000 - v[6]);
    let rest = 10_000 - v[6] - v[7];
    v[8] = dice.of(&[rest, rest, rest, (rest + 1).min(10_000), rest.saturating_sub(1), rest / 100]);
    v
}
