//! Document 02, W5: a clean book saved from a damaged one, and the list of what was dropped.

use crate::model::hints::hint;
use crate::model::judge::judge;
use crate::model::kind;
use crate::model::record::{record_of, LENGTHS};
use crate::model::state::State;
use crate::model::words::sentence;

/// The reading ends once so many records are kept, so that the close is the last of 4,096.
const MOST_KEPT: u16 = 4_095;

/// The most bytes that the program reads before the reading ends: what stands after its end does not count.
pub const LONGEST: usize = 131_072;

/// A record that was dropped: its number in the damaged book, from 0, the code, and the number of its heading where it was dropped with that.
struct Dropped {
    number: u64,
    code: u8,
    with_heading: Option<u64>,
}

/// The kept records, which are all that the state has read, the dropped ones, the bytes of both, and whether a dropped heading came last.
pub struct Found {
    kept: Vec<u8>,
    state: State,
    dropped: Vec<Dropped>,
    read: usize,
    heading_dropped: bool,
}

/// What becomes of one record; one that goes with its heading has code 6.
enum Fate {
    Kept(State),
    Dropped(u8),
    WithHeading,
    End,
}

/// The bytes of the record that lies whole at the front, if one does.
fn first_record(bytes: &[u8]) -> Option<&[u8]> {
    let length = u16::from_be_bytes([*bytes.first()?, *bytes.get(1)?]);
    if LENGTHS.contains(&length) {
        bytes.get(..2 + usize::from(length))
    } else {
        None
    }
}

fn fate(state: &State, heading_dropped: bool, record: &[u8]) -> Fate {
    let kind = record[3];
    let judged = judge(state, record);
    let code = judged.as_ref().err().map_or(0, |fault| fault.0);
    match (code, kind) {
        (2..=4, _) => Fate::Dropped(code),
        _ if heading_dropped && kind::of_group(kind) => Fate::WithHeading,
        (6..=11, _) => Fate::Dropped(code),
        (_, kind::CLOSE) => Fate::End,
        _ => Fate::Kept(judged.ok().expect("what is left is accepted").state),
    }
}

/// Reads the damaged book up to where its reading ends.
pub fn find(damaged: &[u8]) -> Found {
    let mut found = Found {
        kept: Vec::new(),
        state: State::default(),
        dropped: Vec::new(),
        read: 0,
        heading_dropped: false,
    };
    let mut heading = 0;
    for number in 0.. {
        if found.state.records >= MOST_KEPT {
            break;
        }
        let Some(record) = first_record(&damaged[found.read..]) else { break };
        let dropped = match fate(&found.state, found.heading_dropped, record) {
            Fate::End => break,
            Fate::Dropped(code) => Some(Dropped { number, code, with_heading: None }),
            Fate::WithHeading => Some(Dropped { number, code: 6, with_heading: Some(heading) }),
            Fate::Kept(state) => {
                found.kept.extend(record);
                found.state = state;
                None
            }
        };
        if record[3] == kind::HEADING {
            found.heading_dropped = dropped.is_some();
            heading = number;
        }
        found.dropped.extend(dropped);
        found.read += record.len();
    }
    found
}

/// The line that says where the reading ended and why; none where it was the end of the bytes, or a close with nothing after it.
fn reading_ended(found: &Found, damaged: &[u8]) -> String {
    let (at, rest) = (found.read, &damaged[found.read..]);
    let close = first_record(rest)
        .filter(|record| matches!(fate(&found.state, found.heading_dropped, record), Fate::End));
    let read = close.map_or(0, <[u8]>::len);
    let unread = rest.len() - read;
    if unread == 0 {
        return String::new();
    }
    let why = match rest {
        _ if close.is_some() => "its close".to_string(),
        _ if found.state.records >= MOST_KEPT => format!("{MOST_KEPT} records are kept"),
        [high, low, ..] if !LENGTHS.contains(&u16::from_be_bytes([*high, *low])) => {
            let length = u16::from_be_bytes([*high, *low]);
            format!("a length that no record has ({length})")
        }
        _ => "a record that is not whole".to_string(),
    };
    format!("reading ended at byte {at}: {why}; {unread} bytes were not read\n")
}

impl Found {
    /// The clean book, with a right close.
    pub fn book(&self) -> Vec<u8> {
        let close = record_of(kind::CLOSE, &[u64::from(self.state.records)]);
        [self.kept.clone(), close].concat()
    }

    /// The bytes of the list: eight of a record's number, one of its code.
    fn list(&self) -> Vec<u8> {
        let entry = |d: &Dropped| [&d.number.to_be_bytes()[..], &[d.code]].concat();
        self.dropped.iter().flat_map(entry).collect()
    }

    /// 19: nothing is kept before a farm record is.
    pub fn has_no_farm(&self) -> bool {
        self.state.records == 0
    }
}

/// The clean book and the list for buffers of so much room, or the number that refuses them: 19, then 16.
pub fn salvage(
    damaged: &[u8],
    book_room: usize,
    list_room: usize,
) -> Result<(Vec<u8>, Vec<u8>), u8> {
    let found = find(damaged);
    let (book, list) = (found.book(), found.list());
    if found.has_no_farm() {
        Err(19)
    } else if book.len() > book_room || list.len() > list_room {
        Err(16)
    } else {
        Ok((book, list))
    }
}

/// What the program writes, its list and what it says, whether it saved a book, and whether it read all of the damaged one.
pub struct Told {
    pub book: Vec<u8>,
    pub list: Vec<u8>,
    pub said: String,
    pub saved: bool,
    pub read: bool,
}

fn unsaved(said: &str) -> Told {
    Told { book: Vec::new(), list: Vec::new(), said: said.to_string(), saved: false, read: false }
}

/// The line of a dropped record.
fn line(d: &Dropped) -> String {
    let words = match d.with_heading {
        Some(heading) => format!("its heading, record {heading}, was dropped"),
        None => why(d.code).to_string(),
    };
    format!("record {}: dropped {}: {words}\n", d.number, d.code)
}

/// What is wrong, in words; the writer of typed lines says 2, 4 and 7 in another way.
fn why(code: u8) -> &'static str {
    match code {
        2 => "the version is not 1, nor 2 of a farm record",
        4 => "a wrong length or count of values",
        7 => "a value is out of its range",
        _ => sentence(code),
    }
}

/// The program on a damaged book, with a hint where nothing was saved.
pub fn tell(damaged: &[u8]) -> Told {
    let mut told = saved_from(damaged);
    if !told.saved {
        told.said += hint(damaged);
    }
    told
}

fn saved_from(damaged: &[u8]) -> Told {
    let found = find(damaged);
    if found.read > LONGEST {
        return unsaved("the damaged book is longer than 131072 bytes: nothing is written\n");
    }
    if found.has_no_farm() {
        return unsaved("refused 19\n");
    }
    let ended = reading_ended(&found, damaged);
    let mut said: String = found.dropped.iter().map(line).collect();
    said += &ended;
    said += &format!("{} kept, {} dropped\n", found.state.records, found.dropped.len());
    Told { book: found.book(), list: found.list(), said, saved: true, read: ended.is_empty() }
}
