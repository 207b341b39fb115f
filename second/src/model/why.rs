//! Document 02, W6: why a book is refused.

use crate::model::fields::{spoken_of, with_decimals};
use crate::model::judge::judge;
use crate::model::kind;
use crate::model::record::{fields_with, length_of, values_of, LENGTHS};
use crate::model::state::{State, CLOSED};
use crate::model::words::{kind_name, sentence};

/// What is asked of the value, to be right.
enum Asked {
    Exactly,
    AtLeast,
    AtMost,
    Above,
}

/// Two numbers that a rule compares: what the value is of, the value, what is asked of it, and the limit; and how people say them.
struct Compared {
    subject: String,
    value: u128,
    asked: Asked,
    limit: u128,
    decimals: usize,
    unit: &'static str,
}

/// In whole numbers.
fn compared(subject: &str, value: u128, asked: Asked, limit: u128) -> Option<Compared> {
    Some(Compared { subject: subject.to_string(), value, asked, limit, decimals: 0, unit: "" })
}

/// A value outside its range, and the end that it crossed.
fn outside(subject: &str, value: u128, low: u128, high: u128) -> Option<Compared> {
    if value < low {
        compared(subject, value, Asked::AtLeast, low)
    } else {
        compared(subject, value, Asked::AtMost, high)
    }
}

/// The same numbers in the unit that people say.
fn in_unit(numbers: Option<Compared>, decimals: usize, unit: &'static str) -> Option<Compared> {
    numbers.map(|c| Compared { decimals, unit, ..c })
}

impl Compared {
    fn in_words(&self) -> String {
        let asked = match self.asked {
            Asked::Exactly => "",
            Asked::AtLeast => "at least ",
            Asked::AtMost => "at most ",
            Asked::Above => "above ",
        };
        let [value, limit] = [self.value, self.limit].map(|n| with_decimals(n, self.decimals));
        let blank = if self.unit.is_empty() { "" } else { " " };
        format!("{} is {value}{blank}{}; it must be {asked}{limit}", self.subject, self.unit)
    }
}

/// What the rule with this code compares in the record.
fn what_is_compared(state: &State, record: &[u8], code: u8, field: u8) -> Option<Compared> {
    let (version, kind) = (record[2], record[3]);
    match code {
        2 if kind == kind::FARM => outside("the version", u128::from(version), 1, 2),
        2 => compared("the version", u128::from(version), Asked::Exactly, 1),
        3 => outside("the kind", u128::from(kind), 1, u128::from(*kind::ALL.end())),
        4 => {
            let subject = match kind {
                kind::FARM => format!("the length (of version {version})"),
                _ => "the length".to_string(),
            };
            let right = u128::from(length_of(kind, version));
            compared(&subject, record.len() as u128 - 2, Asked::Exactly, right)
        }
        7 => out_of_range(kind, &values_of(record), usize::from(field) - 1),
        _ => out_of_account(state, code, kind, &values_of(record)),
    }
}

/// A field's value and the end of its range, as people say them.
fn out_of_range(kind: u8, values: &[u128], at: usize) -> Option<Compared> {
    let field = &fields_with(kind, values.len())[at];
    let spoken = &spoken_of(kind.into(), values.len())[at];
    let numbers = outside(spoken.name, values[at], field.low.into(), field.high.into());
    in_unit(numbers, spoken.decimals, spoken.unit)
}

/// What 8, 9, 10 and 12 compare.
fn out_of_account(state: &State, code: u8, kind: u8, v: &[u128]) -> Option<Compared> {
    match (code, kind) {
        (8, _) => compared("the group", v[0], Asked::Above, u128::from(state.heading.group)),
        (9, _) => {
            let days = v[0] + u128::from(state.heading.days[kind::days_at(kind)]);
            compared("the sum of days with this record", days, Asked::AtMost, 366)
        }
        (10, kind::CATTLE) => {
            let shares = v[6] + v[7] + v[8];
            in_unit(
                compared("the sum of the shares", shares, Asked::Exactly, 10_000),
                2,
                "per cent",
            )
        }
        (10, kind::GRAZING) => {
            let fractions = v[3] + u128::from(state.heading.grazed);
            let subject = "the sum of fractions with this record";
            in_unit(compared(subject, fractions, Asked::AtMost, 10_000), 2, "per cent")
        }
        (10, _) => {
            let subject = "the sum of the volatilised and leached parts";
            in_unit(compared(subject, v[8] + v[10], Asked::AtMost, 1_000), 3, "")
        }
        (12, _) => compared("the count", v[0], Asked::Exactly, u128::from(state.records)),
        _ => None,
    }
}

/// A refused record: its code and field, its number, its bytes, and its name in brackets.
struct Refused {
    code: u8,
    field: u8,
    number: u16,
    bytes: (usize, usize),
    name: String,
}

/// Both lines of a refusal.
fn refused(r: &Refused, numbers: Option<Compared>) -> (String, bool) {
    let Refused { code, field, number, bytes: (first, last), name } = r;
    let mut line = format!("refused {code} record {number} bytes {first} to {last}");
    if *field > 0 {
        line += &format!(" field {field}");
    }
    let fault = match numbers {
        None => sentence(*code).to_string(),
        Some(c) => {
            line += &format!(" value {} limit {}", c.value, c.limit);
            c.in_words()
        }
    };
    (format!("{line}\nrecord {number}{name}: {fault}\n"), false)
}

/// A record's kind where it is one of the book's, and its group where it stands under a heading.
fn name_of(state: &State, kind: u8) -> String {
    let group = match state.heading.group {
        group if group > 0 && kind::of_group(kind) => format!(", group {group}"),
        _ => String::new(),
    };
    match kind::of(kind.into()) {
        Some(_) => format!(" ({}{group})", kind_name(kind.into())),
        None => String::new(),
    }
}

/// A book that ends before its close, `missing` bytes before its last record does where its length is known.
fn unfinished(missing: Option<usize>) -> (String, bool) {
    let said = match missing {
        None => {
            let people = "the book ends before its close, where another record would begin";
            format!("unfinished: the next length is not known\n{people}\n")
        }
        Some(n) => {
            let bytes = if n == 1 { "byte" } else { "bytes" };
            let people = format!("the book ends inside a record, which needs {n} more {bytes}");
            format!("unfinished: {n} bytes missing\n{people}\n")
        }
    };
    (said, false)
}

/// A book that is closed before the byte `end`.
fn accepted(book: &[u8], end: usize) -> (String, bool) {
    let behind = match book.len() > end {
        true => format!("; bytes stand after its close, from byte {end} on, and change nothing"),
        false => String::new(),
    };
    (format!("accepted\nthe book is right and closed{behind}\n"), true)
}

/// What there is to say of a book, and whether it is accepted.
pub fn why(book: &[u8]) -> (String, bool) {
    let mut state = State::default();
    let mut at = 0;
    while state.stage != CLOSED {
        let (rest, number) = (&book[at..], state.records);
        if rest.len() < 2 {
            return unfinished(None);
        }
        let length = u16::from_be_bytes([rest[0], rest[1]]);
        if !LENGTHS.contains(&length) {
            let numbers = outside("the length", u128::from(length), 4, 26);
            let (bytes, name) = ((at, at + 1), String::new());
            return refused(&Refused { code: 1, field: 0, number, bytes, name }, numbers);
        }
        let size = 2 + usize::from(length);
        if rest.len() < size {
            return unfinished(Some(size - rest.len()));
        }
        let record = &rest[..size];
        match judge(&state, record) {
            Ok(accepted) => state = accepted.state,
            Err((code, field)) => {
                let (bytes, name) = ((at, at + size - 1), name_of(&state, record[3]));
                let numbers = what_is_compared(&state, record, code, field);
                return refused(&Refused { code, field, number, bytes, name }, numbers);
            }
        }
        at += size;
    }
    accepted(book, at)
}
