//! The words of a record as they are typed, and the look of a line.

use crate::makers::dice::Dice;
use crate::model::fields::{spoken_of, Spoken};
use crate::model::record::values_of;
use crate::model::words::kind_name;

/// A blank between words; a spreadsheet's cells with tabs between and behind them; or any blanks, with comments and zeros.
#[derive(Clone, Copy, PartialEq, Eq)]
pub enum Cells {
    Plain,
    Sheet,
    Loose,
}

/// The words of a record.
pub fn words_of(dice: &mut Dice, cells: Cells, record: &[u8]) -> Vec<Vec<u8>> {
    let kind = u64::from(record[3]);
    let values = values_of(record);
    let fields = spoken_of(kind, values.len());
    let mut words = vec![kind_word(dice, cells, kind)];
    for (field, value) in fields.iter().zip(values) {
        words.push(value_word(dice, cells, field, value as u64));
    }
    words
}

fn kind_word(dice: &mut Dice, cells: Cells, kind: u64) -> Vec<u8> {
    let name = kind_name(kind);
    let word = match if cells == Cells::Loose { dice.below(10) } else { 9 } {
        0..=2 => in_capitals(dice, name),
        3 => kind.to_string(),
        4 => format!("{kind:025}"),
        _ => name.to_string(),
    };
    word.into_bytes()
}

/// A name in one of the ways that people write it.
fn in_capitals(dice: &mut Dice, name: &str) -> String {
    match dice.below(5) {
        0 => name.to_uppercase(),
        1 => name[..1].to_uppercase() + &name[1..],
        2 => {
            let some = |c: char| if dice.one_in(2) { c.to_ascii_uppercase() } else { c };
            name.chars().map(some).collect()
        }
        _ => name.to_string(),
    }
}

/// A value as people say it: a choice mostly by its word, a number mostly without the zeros that end it.
fn value_word(dice: &mut Dice, cells: Cells, field: &Spoken, value: u64) -> Vec<u8> {
    let known = value.checked_sub(1).and_then(|at| field.choices.get(at as usize));
    if let Some(word) = known.filter(|_| !dice.one_in(4)) {
        return in_capitals(dice, word).into_bytes();
    }
    let zeros = match cells {
        Cells::Loose if dice.one_in(12) => dice.of(&["0", "000", "00000000000000000000"]),
        _ => "",
    };
    let full = format!("{zeros}{}", field.said(value.into()));
    let word = match dice.below(4) {
        _ if cells == Cells::Sheet => as_general(&full),
        0 | 1 => as_general(&full),
        2 if field.decimals > 0 => with_one_decimal(&full),
        _ => full,
    };
    word.into_bytes()
}

/// As a spreadsheet's General format shows it: no zeros behind the point, and no point before nothing.
pub fn as_general(number: &str) -> String {
    if number.contains('.') {
        number.trim_end_matches('0').trim_end_matches('.').to_string()
    } else {
        number.to_string()
    }
}

/// Without the zeros that end it, but for the first behind the point.
fn with_one_decimal(number: &str) -> String {
    let word = as_general(number);
    if word.contains('.') {
        word
    } else {
        format!("{word}.0")
    }
}

/// A line of a record.
pub fn line_of(dice: &mut Dice, cells: Cells, record: &[u8]) -> Vec<u8> {
    let words = words_of(dice, cells, record);
    match cells {
        Cells::Plain => words.join(&b' '),
        Cells::Sheet => sheet_row(dice, &words),
        Cells::Loose => dressed(dice, &words),
    }
}

/// Cells with a tab between, as many as the widest row has or none more, a remark in the last one now and then.
fn sheet_row(dice: &mut Dice, words: &[Vec<u8>]) -> Vec<u8> {
    let mut row = words.join(&b'\t');
    match dice.below(8) {
        0..=3 => row.extend(vec![b'\t'; 13_usize.saturating_sub(words.len())]),
        4 => row.extend(b"\t# from the sheet"),
        5 => row.extend(b"  \t "),
        _ => (),
    }
    row
}

/// Words with blanks, a comment, or more bytes than they need.
pub fn dressed(dice: &mut Dice, words: &[Vec<u8>]) -> Vec<u8> {
    let blanks = |dice: &mut Dice| -> &[u8] {
        dice.of::<&[u8]>(&[b" ", b" ", b" ", b"\t", b"   ", b" \t ", b"\r"])
    };
    let mut line = if dice.one_in(8) { blanks(dice).to_vec() } else { Vec::new() };
    for (place, word) in words.iter().enumerate() {
        if place > 0 {
            line.extend(blanks(dice));
        }
        line.extend(word);
    }
    if dice.one_in(40) {
        line = padded(dice, line, &[1_020, 1_021]);
    }
    match dice.below(10) {
        0 => line.extend(b"# a comment"),
        1 => line.extend(b" # 1 2 # 3 \0 \xff"),
        2 if dice.one_in(5) => line.extend([b"#".to_vec(), vec![b'9'; 6_000]].concat()),
        3 => line.extend(b" \r"),
        4 => line.extend(b"\t "),
        _ => (),
    }
    line
}

/// Blanks before, behind, or between the first word and the others, up to one of these lengths.
pub fn padded(dice: &mut Dice, mut line: Vec<u8>, lengths: &[usize]) -> Vec<u8> {
    let blanks = vec![b' '; dice.of(lengths).saturating_sub(line.len())];
    let first_blank = line.iter().position(|&byte| byte == b' ').unwrap_or(0);
    let at = dice.of(&[0, first_blank, line.len()]);
    line.splice(at..at, blanks);
    line
}
