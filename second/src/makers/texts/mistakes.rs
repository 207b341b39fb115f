//! The mistakes that people make in a line.

use super::any_bytes;
use super::cells::{dressed, padded, words_of, Cells};
use super::closes::some_close;
use crate::makers::books::wrong_record;
use crate::makers::dice::Dice;
use crate::model::fields::{spoken_of, Spoken};
use crate::model::state::State;

/// First words that are no kind.
pub const NO_KINDS: [&[u8]; 16] = [
    b"headng",
    b"Heding",
    b"heading:",
    b"head",
    b"headings",
    b"enterics",
    b"farmer",
    b"clos",
    b"-2",
    b"2.",
    b"2.0",
    b"+2",
    b"h\xc3\xa9ading",
    b"\0heading",
    b"\xef\xbb\xbfheading",
    b"heading\x0b2",
];

/// First words that are numbers and no kind, some of which would be one if they were cut to their last bits.
pub const OTHER_KINDS: [&[u8]; 9] = [
    b"0",
    b"11",
    b"77",
    b"000",
    b"258",
    b"4294967298",
    b"18446744073709551618",
    b"99999999999999999999",
    b"00000000000000000000000000000000000000000000000000000000000000000000000000000000000000000011",
];

/// Words that are no numbers; some are numbers in other places or programs.
const NO_NUMBERS: [&[u8]; 29] = [
    b".5",
    b"5.",
    b".",
    b"..",
    b"1.2.3",
    b"-1",
    b"+5",
    b"1e3",
    b"1E-05",
    b"1,5",
    b"1,",
    b",5",
    b"1,000.5",
    b"1.000,5",
    b"1,000,5",
    b"1'000",
    b"0x10",
    b"x",
    b"\"",
    b"\"1\"",
    b"\0",
    b"12\0",
    b"\xc2\xbd",
    b"\xff\xfe\x80",
    b"1\x0c2",
    b"12a",
    b"!~\x7f\x1f",
    b"a-word-of-more-than-24-bytes-in-all",
    b"exactly-24-bytes-of-word",
];

/// Words that are none of a choice's, or another field's.
const NO_CHOICES: [&str; 16] = [
    "Bavaria",
    "cow",
    "calf",
    "heifers",
    "heifer",
    "fine",
    "milkin",
    "mlking",
    "boreal",
    "no",
    "no-to-no",
    "reduced_to_no",
    "ontario,",
    "1.0",
    "-1",
    "pigs",
];

/// One or more lines in the place of a record, most of which fail.
pub fn mistaken(dice: &mut Dice, state: &State, record: &[u8]) -> Vec<Vec<u8>> {
    let mut words = words_of(dice, Cells::Loose, record);
    let kind = record[3];
    match dice.below(26) {
        0 => words[0] = dice.of(&NO_KINDS).to_vec(),
        1 => words[0] = dice.of(&OTHER_KINDS).to_vec(),
        2 => words = mistyped_heading(dice, state),
        3..=8 => refused_record(dice, state, &mut words),
        9 | 10 => wrong_word(dice, &mut words),
        11 | 12 => wrong_number(dice, kind, &mut words),
        13 | 14 => with_comma(dice, kind, &mut words),
        15 => with_decimals(dice, kind, &mut words),
        16 | 17 => misspelt_choice(dice, kind, &mut words),
        18 => another_count(dice, &mut words),
        19 => words.push(dice.of::<&[u8]>(&[b"hay", b"ha", b"MJ", b"1", b"%"]).to_vec()),
        20 => return vec![padded(dice, words.join(&b' '), &[1_023, 1_024, 1_025, 3_000, 9_000])],
        21 => return vec![long_word(dice, &words)],
        22 => return vec![any_bytes(dice)],
        23 => return vec![some_close(dice, state.records)],
        24 if dice.one_in(4) => {
            return (0..dice.between(2, 30)).map(|_| dice.of(&NO_KINDS).to_vec()).collect()
        }
        _ => {
            words[0] = dice.of(&OTHER_KINDS).to_vec();
            wrong_word(dice, &mut words);
        }
    }
    vec![dressed(dice, &words)]
}

/// A heading that is not read, or refused.
pub fn mistyped_heading(dice: &mut Dice, state: &State) -> Vec<Vec<u8>> {
    let next = u64::from(state.heading.group) + 1;
    let class = dice.of(&["milking", "Dry", "heifer", "pig", "1", "4"]);
    let mut words: Vec<Vec<u8>> =
        ["heading".to_string(), next.to_string(), class.to_string(), "14".to_string()]
            .map(String::into_bytes)
            .to_vec();
    match dice.below(6) {
        0 => words[0] = dice.of(&NO_KINDS).to_vec(),
        1 => words[1] = (next - 1).to_string().into_bytes(),
        2 => words[2] = dice.of::<&[u8]>(&[b"0", b"5", b"257", b"1.0", b"drye", b"cows"]).to_vec(),
        3 => words[3] = dice.of::<&[u8]>(&[b"20001", b"65550", b"many", b"14."]).to_vec(),
        4 => words.truncate(3),
        _ => words.push(b"1".to_vec()),
    }
    words
}

/// The words of a record that is refused by one of 6 to 12, where the book can come to it.
fn refused_record(dice: &mut Dice, state: &State, words: &mut Vec<Vec<u8>>) {
    let number = dice.of(&[6, 7, 8, 9, 9, 10, 10, 10, 11, 12]);
    if let Some(record) = wrong_record(dice, state, number) {
        *words = words_of(dice, Cells::Loose, &record);
    }
}

/// One or two of the values become words that are no numbers, or such a word stands behind them.
fn wrong_word(dice: &mut Dice, words: &mut Vec<Vec<u8>>) {
    for _ in 0..dice.between(1, 2) {
        let place = dice.between(1, words.len() as u64) as usize;
        let word = dice.of(&NO_NUMBERS).to_vec();
        if place == words.len() {
            words.push(word);
        } else {
            words[place] = word;
        }
    }
}

/// One of the words behind the kind, drawn, and its field.
fn some_place(dice: &mut Dice, kind: u8, words: &[Vec<u8>]) -> (usize, &'static Spoken) {
    let count = words.len() - 1;
    let place = dice.between(1, count as u64) as usize;
    (place, &spoken_of(kind.into(), count)[place - 1])
}

/// One of the values becomes large, or is given in the book's unit.
fn wrong_number(dice: &mut Dice, kind: u8, words: &mut [Vec<u8>]) {
    let (place, field) = some_place(dice, kind, words);
    let right = digits_of(&words[place]);
    let word = match dice.below(8) {
        0 | 1 => format!("{right}{}", "0".repeat(field.decimals)),
        2 => format!("{}.{}", "9".repeat(30), "9".repeat(field.decimals)),
        3 => "9999999999999999".to_string(),
        4 => "99999999999999999999".to_string(),
        5 => (u128::from(right) + (1 << dice.of(&[8, 16, 32, 64]))).to_string(),
        6 => "7".repeat(dice.of(&[17, 19, 24, 25, 40, 300])),
        _ => u64::MAX.to_string(),
    };
    words[place] = word.into_bytes();
}

/// The digits of a word as a number, its point left out; 0 where there are too many.
fn digits_of(word: &[u8]) -> u64 {
    let digits: String =
        word.iter().filter(|byte| byte.is_ascii_digit()).map(|&b| char::from(b)).collect();
    digits.parse().unwrap_or(0)
}

/// One of the values with a comma in place of its point; without one, with decimals behind a comma.
fn with_comma(dice: &mut Dice, kind: u8, words: &mut [Vec<u8>]) {
    let (place, field) = some_place(dice, kind, words);
    let word = &mut words[place];
    match word.iter().position(|&byte| byte == b'.') {
        Some(point) => word[point] = b',',
        None => {
            let decimals = dice.of(&[1, field.decimals.max(1), field.decimals + 1]);
            word.extend([b",".to_vec(), vec![b'5'; decimals]].concat());
        }
    }
}

/// One of the values with more decimals than its field has, or just as many.
fn with_decimals(dice: &mut Dice, kind: u8, words: &mut [Vec<u8>]) {
    let (place, field) = some_place(dice, kind, words);
    let whole: Vec<u8> = words[place].iter().copied().take_while(|&byte| byte != b'.').collect();
    let zeros = field.decimals + dice.of(&[0, 1, 1, 1, 20]);
    let decimals = dice.of(&["0", "3"]).repeat(zeros.max(1));
    words[place] = [whole, b".".to_vec(), decimals.into_bytes()].concat();
}

/// One of the choices misspelt, or another field's; where the record has none, any of its words.
fn misspelt_choice(dice: &mut Dice, kind: u8, words: &mut [Vec<u8>]) {
    let fields = spoken_of(kind.into(), words.len() - 1);
    let choices: Vec<usize> =
        (1..words.len()).filter(|&place| fields[place - 1].is_choice()).collect();
    let place = match choices.is_empty() {
        true => dice.between(1, words.len() as u64 - 1) as usize,
        false => dice.of(&choices),
    };
    let mut word = words[place].clone();
    match dice.below(4) {
        0 => drop(word.pop()),
        1 => word.insert(0, b'-'),
        2 => word.retain(|&byte| byte != b'-'),
        _ => word = dice.of(&NO_CHOICES).as_bytes().to_vec(),
    }
    words[place] = word;
}

fn another_count(dice: &mut Dice, words: &mut Vec<Vec<u8>>) {
    let count = words.len();
    let drawn = dice.between(1, 40) as usize;
    let fill = dice.of::<&[u8]>(&[b"0", b"1", b"99999999999999999999", b"1.5", b"hay"]).to_vec();
    words.resize(dice.of(&[1, count - 1, count + 1, 14, drawn]), fill);
}

/// A line of one long word, or of many short ones.
fn long_word(dice: &mut Dice, words: &[Vec<u8>]) -> Vec<u8> {
    let mut line = [words[0].clone(), b" ".to_vec()].concat();
    let length = dice.of(&[1_023, 1_024, 3_000]);
    while line.len() < length {
        line.extend(dice.of::<&[u8]>(&[b"1", b"0", b"7", b"1", b"4"]));
        if dice.one_in(300) {
            line.push(b' ');
        }
    }
    line
}
