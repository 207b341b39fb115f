//! Sheets and runs of line records by chance (document 02, W13).

use crate::makers::dice::Dice;
use crate::model::sheets::{line_size, row, HEADER};

/// A figure by chance: often an end of its range, zero or small.
fn figure(dice: &mut Dice) -> u64 {
    let half = 1u64 << 63;
    match dice.below(6) {
        0 => 0,
        1 => dice.of(&[u64::MAX, half, half - 1, half + 1, 1, 9, 10, 99, 100]),
        2 => dice.below(1000),
        3 => 0u64.wrapping_sub(dice.below(1_000_000)),
        4 => dice.below(100_000_000_000_000),
        _ => dice.roll(),
    }
}

fn line_by_chance(dice: &mut Dice) -> Vec<u8> {
    let kind = dice.of(&[3, 4, 5, 6, 7, 8, 9, 10, 16]);
    let mut line = vec![0, line_size(kind) as u8 - 2, 1, kind];
    line.extend((dice.of(&[0, 1, 12, 65_535, 40_000]) as u16).to_be_bytes());
    while line.len() < line_size(kind) {
        line.extend(figure(dice).to_be_bytes());
    }
    line
}

/// A run of lines by chance: right, or cut, or with a byte changed.
pub fn lines(seed: u64, index: u64) -> Vec<u8> {
    let mut dice = Dice::of_case(seed, index);
    let most = if dice.one_in(20) { 900 } else { 9 };
    let mut lines = Vec::new();
    for _ in 0..dice.below(most) {
        lines.extend(line_by_chance(&mut dice));
    }
    let len = lines.len() as u64;
    match dice.below(5) {
        0 if len > 0 => lines.truncate(dice.below(len) as usize),
        1 if len > 0 => {
            let line = dice.below(len / 62 + 1) * 54;
            let at = (line + dice.below(4)).min(len - 1) as usize;
            lines[at] = dice.of(&[0, 1, 2, 8, 11, 15, 16, 17, 52, 60, 255]);
        }
        _ => {}
    }
    lines
}

/// What a column may be in place of a right one.
const ODD: [&str; 22] = [
    "",
    "-0",
    "00",
    "07",
    "+1",
    " 1",
    "1 ",
    "-",
    "--1",
    "\"1\"",
    "1.0",
    "1e3",
    "65536",
    "65535",
    "11",
    "2",
    "17",
    "18446744073709551616",
    "9223372036854775808",
    "-9223372036854775808",
    "-9223372036854775809",
    "100000000000000000000000000000000000000000",
];

/// A sheet with something changed in it.
fn damaged(dice: &mut Dice, text: &str) -> Vec<u8> {
    let mut rows: Vec<String> = text.split_inclusive("\r\n").map(str::to_string).collect();
    let at = dice.below(rows.len() as u64) as usize;
    let bare = rows[at].trim_end_matches("\r\n").to_string();
    let mut columns: Vec<String> = bare.split(',').map(str::to_string).collect();
    let column = dice.below(columns.len() as u64) as usize;
    match dice.below(12) {
        0 => rows[at] = bare + "\n",
        1 => rows[at] = bare + "\r",
        2 => rows[at] = bare,
        3 => {
            rows[at] = dice.of(&["\r\n", "\n", ",,,,,,,,\r\n", "\u{feff}\r\n", "3\r\n"]).to_string()
        }
        4 => {
            columns.remove(column);
            rows[at] = columns.join(",") + "\r\n";
        }
        5 => {
            columns.insert(column, "0".to_string());
            rows[at] = columns.join(",") + "\r\n";
        }
        6..=9 => {
            columns[column] = dice.of(&ODD).to_string();
            if dice.one_in(4) {
                let other = dice.below(columns.len() as u64) as usize;
                columns[other] = dice.of(&ODD).to_string();
            }
            rows[at] = columns.join(",") + "\r\n";
        }
        10 => rows.swap(0, at),
        _ => {
            let mut bytes = text.as_bytes().to_vec();
            let place = dice.below(bytes.len() as u64) as usize;
            match dice.below(3) {
                0 => bytes.truncate(place),
                1 => bytes[place] = dice.of(b"\r\n,-+0123456789 \";\0\xff"),
                _ => bytes.insert(place, dice.of(b"\r\n,-+0123456789 \";\0\xff")),
            }
            return bytes;
        }
    }
    rows.concat().into_bytes()
}

/// A text as other programs save a sheet: with semicolons, a byte order mark, line feeds alone, quotes, or all of its last rows so.
fn saved_otherwise(text: &str, way: u64) -> String {
    let (head, rows) = text.split_at(text.find('\n').map_or(0, |at| at + 1));
    match way % 8 {
        0 => text.replace(',', ";"),
        1 => format!("\u{feff}{text}"),
        2 => text.replace("\r\n", "\n"),
        3 => text.replace(',', "\",\"").replace("\r\n", "\"\r\n\""),
        4 => head.to_string() + &rows.replace(',', ";"),
        5 => head.to_string() + &rows.replace("\r\n", "\n"),
        6 => head.to_string() + &rows.replace(',', "\",\""),
        _ => head.to_string() + &rows.replace(",\r\n", ";\r\n"),
    }
}

/// A sheet by chance: right, damaged once or twice, or as another program saves one.
pub fn sheet(seed: u64, index: u64) -> Vec<u8> {
    let mut dice = Dice::of_case(seed, index);
    let mut text = HEADER.to_string();
    let most = if dice.one_in(20) { 900 } else { 7 };
    for _ in 0..dice.below(most) {
        text += &row(&line_by_chance(&mut dice));
    }
    if index % 16 == 9 {
        return saved_otherwise(&text, index / 16).into_bytes();
    }
    let mut bytes = text.into_bytes();
    for _ in 0..dice.below(3) {
        // no text is left of one that was cut at its beginning
        match String::from_utf8(bytes.clone()) {
            Ok(text) if !text.is_empty() => bytes = damaged(&mut dice, &text),
            _ => {}
        }
    }
    bytes
}
