//! Typed texts by chance: right books as people and their spreadsheets type them, and the mistakes that they make.

mod cells;
mod closes;
mod each;
mod lost;
mod mistakes;
mod sums;
mod values;

use crate::makers::books::{after, in_either_version, right_close};
use crate::makers::dice::Dice;
use crate::makers::plain::plain_values;
use crate::model::kind;
use crate::model::state::{State, MOST_RECORDS};
use cells::{line_of, Cells};
use closes::{closes, ending};
use each::{each_field, halves, usual_ends};
use lost::lost_headings;
use mistakes::mistaken;
use sums::sums;
use values::{some_record, Values};

const MARK: &[u8] = b"\xef\xbb\xbf";

/// Words at the ends of a set's and a factor's range and beside them, some of which would be right if they were cut to their last bits; and no
/// numbers.
const FACTOR_WORDS: [&str; 18] = [
    "0",
    "1",
    "2",
    "3",
    "21",
    "310",
    "999",
    "1000",
    "1001",
    "65535",
    "65536",
    "65557",
    "0001",
    "18446744073709551617",
    "99999999999999999999",
    "1.0",
    "-1",
    "x",
];

/// How a text is typed: how often a line is mistaken (once in so many, 0 never), the values that are drawn, the look of its lines, and their ends.
struct Manner {
    mistakes: u64,
    values: Values,
    cells: Cells,
    end: &'static [u8],
}

/// The text of this seed and index.
pub fn text(seed: u64, index: u64) -> Vec<u8> {
    let mut dice = Dice::of_case(seed, index);
    let dice = &mut dice;
    match index % 100 {
        0 => odd_text(dice, index / 100),
        1 => too_many_records(dice),
        2 => any_bytes(dice),
        place @ 3..=13 => each_field(place as usize - 3, index / 100),
        place @ 14..=17 => usual_ends(dice, index / 100 * 4 + place - 14),
        18..=21 => lost_headings(dice),
        22..=25 => closes(dice),
        26..=28 => many_farms(dice),
        29 => halves(dice),
        30..=33 => sums(dice),
        _ => typed_book(dice),
    }
}

/// Texts with hardly a line in them.
fn odd_text(dice: &mut Dice, which: u64) -> Vec<u8> {
    let long = vec![b' '; dice.of(&[1_022, 1_023, 1_024, 5_000])];
    let closed_long = [b"farm 7 2010 1\nclose\n".to_vec(), long.clone()].concat();
    let texts: [&[u8]; 12] = [
        b"",
        MARK,
        b"\n",
        b"\r\n\t \r\n",
        b"# nothing but a comment",
        b"\xef\xbb",
        b"\xef\xbb\xbf\xef\xbb\xbffarm 7 2010 1\n",
        b"close\nclose 0\n8 1\n",
        b"enteric 1 1 1\nheadng\nenteric 1 1 1\nfarm 7 2010 1\nenteric 1 1 1\nclose",
        &long,
        b"close",
        &closed_long,
    ];
    texts[which as usize % texts.len()].to_vec()
}

/// About as many records as a book has room for, or more.
fn too_many_records(dice: &mut Dice) -> Vec<u8> {
    let mut text = farm_line(dice).into_bytes();
    let room = u64::from(MOST_RECORDS) - 2;
    let count = if dice.one_in(2) { room } else { dice.between(room - 1, room + 32) };
    for i in 0..count {
        let line = match i % 4 {
            0 => format!("heading {} {} 3\n", i + 1, 1 + i / 4 % 4),
            1 => format!("soil {i}.5\n"),
            2 => {
                format!("tillage {} {} {} {} {i}.5\n", 1 + i % 9, 1 + i % 3, 1 + i % 6, 1 + i % 100)
            }
            _ => format!("energy 1 {i} 7\n"),
        };
        text.extend(line.bytes());
    }
    text.extend(b"close\n");
    text
}

/// A right farm line, of either version.
fn farm_line(dice: &mut Dice) -> String {
    let values: Vec<String> =
        in_either_version(dice, plain_values(kind::FARM)).iter().map(u64::to_string).collect();
    format!("farm {}\n", values.join(" "))
}

/// Farm lines whose sets and factors are at and beside their ends, or no numbers, or too few or too many, up to a right one and more behind it.
fn many_farms(dice: &mut Dice) -> Vec<u8> {
    let mut text = String::new();
    for _ in 0..dice.between(2, 10) {
        let number = dice.of(&["7", "7", "7", "7", "7", "4294967296"]);
        let year = dice.of(&["2010", "2010", "2012", "2200", "2010", "1899"]);
        let mut words = vec!["farm", number, year];
        for _ in 0..dice.of(&[0, 1, 1, 2, 2, 2, 2, 2, 2, 3]) {
            words.push(dice.of(&FACTOR_WORDS));
        }
        text += &format!("{}\n", words.join(" "));
    }
    text += &farm_line(dice);
    text += &farm_line(dice);
    text += dice.of(&["", "heading 1 milking 40\nenteric 31 300 6.5\n"]);
    text += "close\n";
    text.into_bytes()
}

/// Bytes by chance, with those that matter more often than others.
fn any_bytes(dice: &mut Dice) -> Vec<u8> {
    let count = dice.below(600);
    let some = |dice: &mut Dice| match dice.below(8) {
        0 => dice.below(256) as u8,
        1 => b'\n',
        2 => b'#',
        3 => b'.',
        4 | 5 => dice.of(b" \t\r\0"),
        _ => dice.of(b"0123456789"),
    };
    (0..count).map(|_| some(dice)).collect()
}

/// One text in two has no mistake; a spreadsheet's lines mostly end as it ends them.
fn some_manner(dice: &mut Dice) -> Manner {
    let cells = dice.of(&[Cells::Plain, Cells::Sheet, Cells::Sheet, Cells::Loose]);
    let ends: &[&[u8]] = match cells {
        Cells::Sheet => &[b"\r\n", b"\r\n", b"\n"],
        _ => &[b"\n", b"\n", b"\n", b"\r\n"],
    };
    Manner {
        mistakes: dice.of(&[0, 0, 0, 0, 0, 40, 15, 6, 6, 2]),
        values: dice.of(&[
            Values::Usual,
            Values::Usual,
            Values::Mostly,
            Values::Mostly,
            Values::Any,
        ]),
        cells,
        end: dice.of(ends),
    }
}

/// A book, each record a line, with a close or without.
fn typed_book(dice: &mut Dice) -> Vec<u8> {
    let manner = some_manner(dice);
    let mut lines = if dice.one_in(8) { vec![some_no_record(dice)] } else { Vec::new() };
    let mut state = State::default();
    let count = dice.of(&[1, 4, 12, 12, 30, 70]);
    let year = dice.of(&[1900, 1999, 2000, 2010, 2011, 2012, 2100, 2200]);
    for _ in 0..count {
        let record = some_record(dice, &state, year, manner.values);
        if manner.mistakes > 0 && dice.one_in(manner.mistakes) {
            lines.extend(mistaken(dice, &state, &record));
            // A record that is mistyped is left out now and then.
            if dice.one_in(3) {
                continue;
            }
        }
        state = after(&state, &record);
        lines.push(line_of(dice, manner.cells, &record));
        if dice.one_in(6) {
            lines.push(some_no_record(dice));
        }
    }
    let close = line_of(dice, manner.cells, &right_close(&state));
    lines.extend(ending(dice, &state, &close, manner.mistakes == 0));
    joined(dice, manner.end, &lines)
}

/// The lines put together, with a mark before them and a line end after them or not.
fn joined(dice: &mut Dice, end: &[u8], lines: &[Vec<u8>]) -> Vec<u8> {
    let mut text = if dice.one_in(5) { MARK.to_vec() } else { Vec::new() };
    for line in lines {
        text.extend(line);
        text.extend(end);
    }
    if dice.one_in(5) {
        text.truncate(text.len().saturating_sub(end.len()));
    }
    text
}

/// A line that is no record: empty, blank, or a comment, which may be long; now and then more blanks than a line may have.
fn some_no_record(dice: &mut Dice) -> Vec<u8> {
    let long = dice.of(&[200, 1_024, 4_096, 9_000]);
    match dice.below(10) {
        0 | 1 => Vec::new(),
        2 => b" \t \r ".to_vec(),
        3 => b"\t\t\t\t\t\t\t\t".to_vec(),
        4 => b"# heading 1 1 1 # and more".to_vec(),
        5 => [b"   #".to_vec(), vec![b'x'; long]].concat(),
        6 => [b"#".to_vec(), vec![b'#'; long], b" farm \0 \xff".to_vec()].concat(),
        7 if dice.one_in(30) => vec![b' '; dice.of(&[1_024, 2_100])],
        7 => vec![b' '; dice.of(&[3, 1_023])],
        _ => b"#".to_vec(),
    }
}
