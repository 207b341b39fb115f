//! Texts of grams by chance: numbers of every length, signs, comments, blanks, and lines that are wrong.

use crate::makers::dice::Dice;

pub fn grams(seed: u64, index: u64) -> Vec<u8> {
    let mut dice = Dice::of_case(seed, index);
    let mut text = Vec::new();
    for _ in 0..dice.below(40) {
        text.extend(line(&mut dice));
        text.push(b'\n');
    }
    if dice.below(3) == 0 {
        text.extend(line(&mut dice));
    }
    text
}

fn line(dice: &mut Dice) -> Vec<u8> {
    let number = number(dice);
    match dice.below(16) {
        0 => Vec::new(),
        1 => format!(" \t{number} \r").into_bytes(),
        2 => format!("{number} # {number}").into_bytes(),
        3 => format!("{number} {number}").into_bytes(),
        4 => format!("{number}.5").into_bytes(),
        5 => format!("{number}{}", " ".repeat(1010 + dice.below(40) as usize)).into_bytes(),
        6 => (0..dice.below(30)).map(|_| 32 + dice.below(224) as u8).collect(),
        7 => b"#".to_vec(),
        _ => number.into_bytes(),
    }
}

fn number(dice: &mut Dice) -> String {
    let sign = ["", "", "", "-", "--"][dice.below(5) as usize];
    let digits = (0..dice.below(23)).map(|_| char::from(b'0' + dice.below(10) as u8));
    format!("{sign}{}", digits.collect::<String>())
}
