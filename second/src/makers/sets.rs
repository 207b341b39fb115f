//! Sets of files by chance for the table of many books: what each is, and its bytes where it is there.

use crate::makers::dice::Dice;
use crate::makers::farms::farm;
use crate::makers::plain::plain_values;
use crate::makers::whole_books::book;
use crate::model::kind;
use crate::model::record::record_of;
use crate::model::state::MOST_RECORDS;

/// A book as full as it can be of the record that gives most CO2e: 2,047 herds of 20,000 head, 366 days, at the ends of GE, Ym and the factor.
fn hugest() -> Vec<u8> {
    let groups = u64::from(MOST_RECORDS - 2) / 2;
    let mut book = record_of(kind::FARM, &[7, 2010, 1_000, 1_000]);
    for group in 1..=groups {
        book.extend(record_of(kind::HEADING, &[group, 1, 20_000]));
        book.extend(record_of(kind::ENTERIC, &[366, 100_000, 2_000]));
    }
    [book, record_of(kind::CLOSE, &[1 + 2 * groups])].concat()
}

/// So many records of one sort, and the farm's.
fn of_farm(records: &[(u64, [u64; 3])]) -> Vec<u8> {
    let mut book = record_of(kind::FARM, &plain_values(kind::FARM));
    for &(count, energy) in records {
        book.extend(record_of(kind::ENERGY, &energy).repeat(count as usize));
    }
    let count = 1 + records.iter().map(|&(count, _)| count).sum::<u64>();
    [book, record_of(kind::CLOSE, &[count])].concat()
}

/// Books whose sums cross what eight bytes hold: `energy` 225 times and `rest` once are 224,193 g of CO2 too much, which `uptake` brings back.
pub fn edges() -> Vec<(&'static str, Vec<u8>)> {
    let most = [1, 10_000_000, 10_000_000];
    let uptake = takes_up(&mut Dice::of_case(1, 1));
    vec![
        ("hugest", hugest()),
        ("energy", of_farm(&[(4_094, most)])),
        ("rest", of_farm(&[(1_187, most), (1, [1, 10_000_000, 2_036_855])])),
        ("uptake", uptake),
    ]
}

/// A book of one record that takes up as much as one can.
fn takes_up(dice: &mut Dice) -> Vec<u8> {
    let farm = record_of(kind::FARM, &plain_values(kind::FARM));
    let tillage = record_of(kind::TILLAGE, &[dice.between(1, 9), 1, 3, 1, 10_000_000]);
    [farm, tillage, record_of(kind::CLOSE, &[2])].concat()
}

/// Up to 30 files: mostly farms' books of every sort, or closed ones alone; now and then a long book or a text; a file that is missing has no bytes.
pub fn set(seed: u64, index: u64) -> Vec<Option<Vec<u8>>> {
    let mut dice = Dice::of_case(seed ^ 0x5345_5453, index);
    let count = if index < 3 { index } else { dice.between(0, 30) };
    let all_closed = dice.one_in(3);
    let file = |dice: &mut Dice| match dice.below(12) {
        0 if !all_closed => None,
        1 => Some(takes_up(dice)),
        2 if dice.one_in(4) => Some(hugest()),
        3 if !all_closed => Some(book(seed, dice.between(15, 24))),
        _ if all_closed => {
            Some(farm(seed, 20 * dice.between(1, 40) + dice.of(&[0, 1, 2, 3, 9, 12, 15])))
        }
        _ => Some(farm(seed, dice.between(0, 200))),
    };
    (0..count).map(|_| file(&mut dice)).collect()
}
