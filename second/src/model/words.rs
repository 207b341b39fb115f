//! The typed book's words: names of kinds and classes, the sentence of each refusal, and how a typed word is shown.

use crate::model::fields::CLASSES;
use crate::model::kind;

/// By their numbers.
pub const KINDS: [&str; 10] = [
    "farm", "heading", "enteric", "cattle", "pig", "energy", "soil", "close", "tillage", "grazing",
];

pub fn kind_name(kind: u64) -> &'static str {
    kind::of(kind).map_or("record", |kind| KINDS[usize::from(kind) - 1])
}

/// The name of a class 1..4.
pub fn class_name(class: u8) -> &'static str {
    CLASSES[usize::from(class) - 1]
}

/// The sentence of a number that the writer can give to a typed line, where 4, 7, 9 and 10 have others, or of 21 and 23 of sheets and lines.
pub fn sentence(code: u8) -> &'static str {
    match code {
        3 => "no such kind of record: kinds are 1 to 10",
        5 => "the book has 4096 records, and no more go in",
        6 => concat!(
            "out of its place: the one farm record is first; ",
            "enteric, cattle and grazing need a milking, dry or heifer heading, pig a pig heading"
        ),
        8 => "the group number must be above that of the heading before",
        9 => "more than 366 days of this kind under the heading",
        10 => concat!(
            "cattle shares must be 100.00 per cent together, grazing fractions under a heading at most that; ",
            "a pig's volatilised and leached parts at most 1.000"
        ),
        11 => "more nitrogen in milk and gain than in the feed",
        12 => "the close counts other records than there are before it; left out, the count is filled in",
        21 => concat!(
            "a number is outside its field: kind 3 to 10 or 16, group to 65535, ",
            "a figure to 18446744073709551615, co2 and co2e -9223372036854775808 to 9223372036854775807"
        ),
        23 => "the bytes are no run of whole lines, as the herd desk gives them: for a book use bin/sheet",
        _ => panic!("the number {code} is given to no typed line, sheet or lines"),
    }
}

/// A word as a message shows it: its first 24 bytes, and a question mark for each that is not to be seen.
pub fn shown(word: &[u8]) -> String {
    let show = |&byte: &u8| if (33..=126).contains(&byte) { char::from(byte) } else { '?' };
    word.iter().take(24).map(show).collect()
}
