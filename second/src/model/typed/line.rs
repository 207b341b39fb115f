//! One line of a typed text: its kind, and its values as people say them.

use crate::model::fields::{spoken_of, Spoken};
use crate::model::kind;
use crate::model::words::{kind_name, shown, KINDS};

/// The bytes that a line may have before its comment.
const LONGEST: usize = 1_023;

/// A line that has a word, or is too long. A kind that can't be told is 0, which is none of the book's.
pub enum Reading<'a> {
    NotRead { kind: u64, why: String },
    Read(Typed<'a>),
}

/// A line's kind, the words behind it, and the values that were read of them: one a field at most.
pub struct Typed<'a> {
    pub kind: u64,
    pub words: Vec<&'a [u8]>,
    values: Vec<u64>,
}

impl Reading<'_> {
    /// Its kind, where it is one of the book's.
    pub fn kind(&self) -> Option<u8> {
        match self {
            Reading::NotRead { kind, .. } => kind::of(*kind),
            Reading::Read(typed) => kind::of(typed.kind),
        }
    }
}

impl Typed<'_> {
    /// A value for each word: those behind the last field are counted, and were not read. A close without a word counts the records before it.
    pub fn offered(&self, records: u16) -> Vec<u64> {
        if kind::of(self.kind) == Some(kind::CLOSE) && self.words.is_empty() {
            return vec![records.into()];
        }
        let mut values = self.values.clone();
        values.resize(self.words.len(), 0);
        values
    }
}

/// Reads a line; none where it has no word. One that is too long is not read, whatever it holds.
pub fn read(line: &[u8]) -> Option<Reading<'_>> {
    let line = line.split(|&byte| byte == b'#').next().unwrap_or(line);
    let blank = |byte: &u8| [b' ', b'\t', b'\r'].contains(byte);
    if line.len() > LONGEST {
        let why = format!("the line is too long: at most {LONGEST} bytes before its #");
        return Some(Reading::NotRead { kind: 0, why });
    }
    let mut words = line.split(blank).filter(|word| !word.is_empty());
    let first = words.next()?;
    let Some(kind) = kind_of(first) else {
        let names = KINDS.join(", ");
        let why =
            format!("\"{}\" is no kind of record; expected {names} or its number", shown(first));
        return Some(Reading::NotRead { kind: 0, why });
    };
    Some(read_values(kind, words.collect()))
}

/// A farm line's count of words says which version it is.
fn read_values(kind: u64, words: Vec<&[u8]>) -> Reading<'_> {
    let mut values = Vec::new();
    for (field, word) in spoken_of(kind, words.len()).iter().zip(&words) {
        match value_of(field, word) {
            Some(value) => values.push(value),
            None => {
                let why = format!("{}, {}: {}", kind_name(kind), field.name, fault_of(field, word));
                return Reading::NotRead { kind, why };
            }
        }
    }
    Reading::Read(Typed { kind, words, values })
}

/// A kind's name, capitals or not, or a whole number.
fn kind_of(word: &[u8]) -> Option<u64> {
    named(&KINDS, word).or_else(|| whole(word))
}

/// The number of a name, from 1 on, capitals or not.
fn named(names: &[&str], word: &[u8]) -> Option<u64> {
    let is_it = |name: &&str| name.as_bytes().eq_ignore_ascii_case(word);
    names.iter().position(is_it).map(|place| place as u64 + 1)
}

/// A word as its field's value in the book's unit: one of a choice's words or its number, else a number in the unit that people say.
fn value_of(field: &Spoken, word: &[u8]) -> Option<u64> {
    if field.is_choice() {
        return named(field.choices, word).or_else(|| whole(word));
    }
    let (front, behind) = number_of(word)?;
    let zeros = vec![b'0'; field.decimals.checked_sub(behind.len())?];
    whole(&[front, behind, &zeros].concat())
}

/// Digits alone; a number too big for anything is the largest there is.
fn whole(word: &[u8]) -> Option<u64> {
    let add = |n: u64, digit: &u8| n.saturating_mul(10).saturating_add(u64::from(digit - b'0'));
    all_digits(word).then(|| word.iter().fold(0, add))
}

/// At least one, and nothing else.
fn all_digits(word: &[u8]) -> bool {
    !word.is_empty() && word.iter().all(u8::is_ascii_digit)
}

/// The digits before the point of a number, and those behind it: none where it has no point.
fn number_of(word: &[u8]) -> Option<(&[u8], &[u8])> {
    let Some(point) = word.iter().position(|&byte| byte == b'.') else {
        return all_digits(word).then_some((word, &[]));
    };
    let (front, behind) = (&word[..point], &word[point + 1..]);
    (all_digits(front) && all_digits(behind)).then_some((front, behind))
}

/// Why a word is no value of its field.
fn fault_of(field: &Spoken, word: &[u8]) -> String {
    let seen = shown(word);
    if field.is_choice() {
        return format!("\"{seen}\" is none of {}", field.choices.join(", "));
    }
    let points: Vec<u8> = word.iter().map(|&b| if b == b',' { b'.' } else { b }).collect();
    let fault = if field.decimals == 0 {
        "is no whole number".to_string()
    } else if number_of(word).is_some() {
        format!("has too many decimals: at most {}", field.decimals)
    } else if value_of(field, &points).is_some() {
        "is no number: use a point".to_string()
    } else {
        "is no number".to_string()
    };
    format!("\"{seen}\" {fault}; expected {}", field.expected())
}
