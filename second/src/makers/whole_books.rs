//! Whole books to try the programs lister and retype on.

use crate::makers::books::closed_run;
use crate::makers::desk::{long_book, many_groups, some_book};
use crate::makers::dice::Dice;
use crate::makers::texts::text;
use crate::model::state::State;

/// The book of this seed and index: short ones of every sort, one refused by each number, long ones with and without bytes after them, typed texts.
pub fn book(seed: u64, index: u64) -> Vec<u8> {
    let mut dice = Dice::of_case(seed, index);
    match index {
        15 => long_book(4_094),
        16 => long_book(4_095),
        17 => many_groups(4_094),
        18 => closed_run(&mut dice, &State::default(), 4_000),
        19 => [closed_run(&mut dice, &State::default(), 4_000), vec![0; 120_000]].concat(),
        20 => long_book(4_094)[..20_000].to_vec(),
        21..=24 => text(seed, index),
        _ => some_book(&mut dice, index),
    }
}
