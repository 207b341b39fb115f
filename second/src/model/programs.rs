//! What the programs lister and retype make of a whole book.

use crate::model::feed::{feed, Answer};
use crate::model::fields::spoken_of;
use crate::model::hints::hint;
use crate::model::lister::list;
use crate::model::record::{number, values_of};
use crate::model::state::{State, LARGE};
use crate::model::words::kind_name;

/// A number and its sentence a line, as C is told them.
const SENTENCES: &str = include_str!("../../../host/words.txt");

/// Standard output, standard error, and whether the exit status is 0.
pub struct Told {
    pub printed: String,
    pub said: String,
    pub right: bool,
}

fn sentence(code: u8) -> &'static str {
    let number = format!("{code} ");
    let line = SENTENCES.lines().find_map(|line| line.strip_prefix(&number));
    line.expect("every number has its sentence")
}

/// A book is closed by its close alone: bytes after it are ignored.
pub fn listed(book: &[u8]) -> Told {
    let answer = read(&State::default(), book).answer;
    let said = match answer {
        Answer::Refused(r) => {
            format!("refused {}: {}; bin/why tells more\n", r.code, sentence(r.code))
        }
        _ => String::new(),
    };
    Told { printed: list(book), said: said + hint(book), right: answer == Answer::Closed }
}

/// The line to type for each record up to the first that is refused; the last word is said, to a person, and a hint.
pub fn retyped(book: &[u8]) -> Told {
    let mut told = typed_again(book);
    told.said += hint(book);
    told
}

fn typed_again(book: &[u8]) -> Told {
    let mut told = Told { printed: String::new(), said: String::new(), right: false };
    let mut state = State::default();
    let mut rest = book;
    loop {
        let record = first_record(rest);
        let reply = read(&state, record);
        (state, rest) = (reply.state, &rest[reply.taken..]);
        match reply.answer {
            Answer::Refused(r) => {
                let why = sentence(r.code);
                told.said = format!("refused {} {} {}: {why}\n", r.code, r.record, r.field);
                return told;
            }
            _ if record.is_empty() || state.held_count > 0 => {
                told.said = "unfinished\n".to_string();
                return told;
            }
            Answer::Closed => {
                told.printed += &typed_line(record);
                told.right = rest.is_empty();
                if !told.right {
                    told.said = format!("{}\n", sentence(18));
                }
                return told;
            }
            _ => told.printed += &typed_line(record),
        }
    }
}

fn read(state: &State, bytes: &[u8]) -> crate::model::feed::Reply {
    feed(state, bytes, LARGE)
}

/// As many bytes as the first two say, or all where they are not there.
fn first_record(bytes: &[u8]) -> &[u8] {
    let size = bytes.get(..2).map_or(2, |length| 2 + number(length) as usize);
    &bytes[..size.min(bytes.len())]
}

/// The kind's name and its values as people say them.
pub fn typed_line(record: &[u8]) -> String {
    let (kind, values) = (u64::from(record[3]), values_of(record));
    let mut line = kind_name(kind).to_string();
    for (field, &value) in spoken_of(kind, values.len()).iter().zip(&values) {
        line += &format!(" {}", field.typed(value));
    }
    line + "\n"
}
