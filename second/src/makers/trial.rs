//! The text of trial cases and of their answers; docs/TRIALS.md gives the format.

use crate::model::feed::{feed, Answer, Reply};
use crate::model::figures::{signed, Figures, Subtotal};
use crate::model::salvage::salvage;
use crate::model::slip::{slip, Change, Ration};
use crate::model::state::{Heading, Refusal, State};
use crate::model::warming::Factors;
use crate::model::writer::write;
use std::fmt::Write as _;

/// What stands in the buffer before each call.
pub const FILL: u8 = 0xA5;

/// A longer run of lines is told by its checksum alone.
const MOST_SHOWN: usize = 200;

#[derive(Clone, Copy, Debug, PartialEq, Eq)]
pub struct Call {
    pub offer: usize,
    pub room: usize,
}

#[derive(Clone, Debug, PartialEq)]
pub enum Case {
    Book { state: State, input: Vec<u8>, calls: Vec<Call> },
    Slip { ration: Ration, change: Change },
    Write { state: State, kind: u64, values: Vec<u64>, room: usize },
    Damaged { book: Vec<u8>, book_room: usize, list_room: usize },
}

/// What is wrong with a line that is no case.
pub type Fault = String;

pub fn hex(bytes: &[u8]) -> String {
    if bytes.is_empty() {
        return "-".to_string();
    }
    const DIGITS: &[u8; 16] = b"0123456789abcdef";
    let mut text = String::with_capacity(2 * bytes.len());
    for &byte in bytes {
        text.push(char::from(DIGITS[usize::from(byte >> 4)]));
        text.push(char::from(DIGITS[usize::from(byte & 15)]));
    }
    text
}

pub fn bytes_of(text: &str) -> Result<Vec<u8>, Fault> {
    if text == "-" {
        return Ok(Vec::new());
    }
    let digits = text.as_bytes();
    if digits.len() % 2 != 0 {
        return Err("an odd number of hex digits".to_string());
    }
    digits.chunks(2).map(|pair| Ok(16 * digit(pair[0])? + digit(pair[1])?)).collect()
}

fn digit(c: u8) -> Result<u8, Fault> {
    match c {
        b'0'..=b'9' => Ok(c - b'0'),
        b'a'..=b'f' => Ok(c - b'a' + 10),
        _ => Err(format!("{:?} is no hex digit", char::from(c))),
    }
}

/// The state's numbers in the order of the notes, held bytes last; CO2 is its eight bytes in two's complement.
fn state_text(s: &State) -> String {
    let (h, r) = (&s.heading, &s.refusal);
    let [d3, d4, d5] = h.days;
    let [ch4, n2o, co2, excreted, land, grazing] = s.sums.in_order();
    let Subtotal { ch4: sub_ch4, n2o: sub_n2o, excreted: sub_excreted, land: sub_land } =
        s.subtotal;
    let Factors { ch4: ch4_factor, n2o: n2o_factor } = s.factors;
    let mut text = format!("{:x} {:x} {ch4_factor:x} {n2o_factor:x}", s.stage, s.records);
    let _ = write!(
        text,
        " {:x} {:x} {:x} {d3:x} {d4:x} {d5:x} {:x}",
        h.group, h.class, h.head, h.grazed
    );
    let _ = write!(text, " {sub_ch4:x} {sub_n2o:x} {sub_excreted:x} {sub_land:x}");
    let _ = write!(text, " {ch4:x} {n2o:x} {co2:x} {excreted:x} {land:x} {grazing:x}");
    let _ = write!(text, " {:x} {:x} {:x}", r.code, r.record, r.field);
    let _ = write!(text, " {:x} {}", s.held_count, hex(&s.held));
    text
}

impl Case {
    pub fn text(&self) -> String {
        match self {
            Case::Book { state, input, calls } => {
                let mut text = format!("B {} {} {:x}", state_text(state), hex(input), calls.len());
                for call in calls {
                    let _ = write!(text, " {:x} {:x}", call.offer, call.room);
                }
                text + "\n"
            }
            Case::Slip { ration, change } => slip_text(ration, *change),
            Case::Write { state, kind, values, room } => write_text(state, *kind, values, *room),
            Case::Damaged { book, book_room, list_room } => {
                format!("D {} {book_room:x} {list_room:x}\n", hex(book))
            }
        }
    }

    /// What the calls, the slip, the writer or the salvage should give.
    pub fn answer(&self) -> String {
        match self {
            Case::Book { state, input, calls } => book_answer(state, input, calls),
            Case::Slip { ration, change } => slip_answer(*ration, *change),
            Case::Write { state, kind, values, room } => write_answer(state, *kind, values, *room),
            Case::Damaged { book, book_room, list_room } => {
                damaged_answer(book, *book_room, *list_room)
            }
        }
    }

    pub fn parse(line: &str) -> Result<Case, Fault> {
        let mut tokens = Tokens(line.trim_end_matches('\n').split(' '));
        let case = match tokens.next()? {
            "B" => tokens.book()?,
            "S" => tokens.slip()?,
            "W" => tokens.write()?,
            "D" => tokens.damaged()?,
            other => return Err(format!("{other:?} is none of B, S, W and D")),
        };
        match tokens.next() {
            Err(_) => Ok(case),
            Ok(extra) => Err(format!("{extra:?} is one token too many")),
        }
    }
}

struct Tokens<'a>(std::str::Split<'a, char>);

impl<'a> Tokens<'a> {
    fn next(&mut self) -> Result<&'a str, Fault> {
        self.0.next().ok_or_else(|| "a token is missing".to_string())
    }

    /// A number that must fit the type it is read into.
    fn number<T: TryFrom<u64>>(&mut self) -> Result<T, Fault> {
        let token = self.next()?;
        let value = u64::from_str_radix(token, 16).map_err(|e| format!("{token:?}: {e}"))?;
        T::try_from(value).map_err(|_| format!("{token} is too big"))
    }

    fn book(&mut self) -> Result<Case, Fault> {
        let state = self.state()?;
        let input = bytes_of(self.next()?)?;
        let count: usize = self.number()?;
        let mut calls = Vec::new();
        for _ in 0..count {
            calls.push(Call { offer: self.number()?, room: self.number()? });
        }
        Ok(Case::Book { state, input, calls })
    }

    fn state(&mut self) -> Result<State, Fault> {
        Ok(State {
            stage: self.number()?,
            records: self.number()?,
            factors: Factors { ch4: self.number()?, n2o: self.number()? },
            heading: Heading {
                group: self.number()?,
                class: self.number()?,
                head: self.number()?,
                days: [self.number()?, self.number()?, self.number()?],
                grazed: self.number()?,
            },
            subtotal: Subtotal {
                ch4: self.number()?,
                n2o: self.number()?,
                excreted: self.number()?,
                land: self.number()?,
            },
            sums: Figures {
                ch4: self.number()?,
                n2o: self.number()?,
                co2: signed(self.number()?),
                excreted: self.number()?,
                land: self.number()?,
                grazing: self.number()?,
            },
            refusal: Refusal {
                code: self.number()?,
                record: self.number()?,
                field: self.number()?,
            },
            held_count: self.number()?,
            held: bytes_of(self.next()?)?.try_into().map_err(|_| "held is 27 bytes".to_string())?,
        })
    }

    fn double(&mut self) -> Result<f64, Fault> {
        Ok(f64::from_bits(self.number()?))
    }

    fn slip(&mut self) -> Result<Case, Fault> {
        let (ge, ym, head) = (self.double()?, self.double()?, self.double()?);
        let ration = Ration { ge, ym, head, days: self.number()? };
        let case: u8 = self.number()?;
        let x = self.double()?;
        let change = match case {
            1 => Change::Feed(x),
            2 => Change::Ym(x),
            3 => Change::Head(x),
            _ => return Err(format!("{case} is no change")),
        };
        Ok(Case::Slip { ration, change })
    }

    fn write(&mut self) -> Result<Case, Fault> {
        let state = self.state()?;
        let (kind, room) = (self.number()?, self.number()?);
        let count: usize = self.number()?;
        let values = (0..count).map(|_| self.number()).collect::<Result<_, _>>()?;
        Ok(Case::Write { state, kind, values, room })
    }

    fn damaged(&mut self) -> Result<Case, Fault> {
        let book = bytes_of(self.next()?)?;
        Ok(Case::Damaged { book, book_room: self.number()?, list_room: self.number()? })
    }
}

/// A checksum whose numbers stay small, over the whole buffer: the bytes written, and what stood past them.
fn checksum(written: &[u8], room: usize) -> (u32, u32) {
    let mut buffer = written.to_vec();
    buffer.resize(room, FILL);
    let (mut a, mut b) = (0, 0);
    for byte in buffer {
        a = (a + u32::from(byte) + 1) % 65_521;
        b = (b + a) % 65_521;
    }
    (a, b)
}

fn book_answer(start: &State, input: &[u8], calls: &[Call]) -> String {
    let mut state = *start;
    let mut left = input;
    let mut text = String::new();
    for call in calls {
        let reply = feed(&state, &left[..call.offer.min(left.len())], call.room);
        text.push_str(&call_text(&reply, call.room));
        left = &left[reply.taken..];
        state = reply.state;
    }
    text + &state_text(&state) + "\n"
}

fn call_text(reply: &Reply, room: usize) -> String {
    let (number, refusal) = match reply.answer {
        Answer::More => (0, Refusal::default()),
        Answer::Full => (1, Refusal::default()),
        Answer::Closed => (2, Refusal::default()),
        Answer::Refused(refusal) => (3, refusal),
    };
    let Refusal { code, record, field } = refusal;
    let written = reply.lines.len();
    let (a, b) = checksum(&reply.lines, room);
    let shown = if written <= MOST_SHOWN { hex(&reply.lines) } else { "-".to_string() };
    let taken = reply.taken;
    format!("{number} {code:x} {record:x} {field:x} {taken:x} {written:x} {a:x} {b:x} {shown}\n")
}

fn slip_text(r: &Ration, change: Change) -> String {
    let (case, x) = match change {
        Change::Feed(x) => (1, x),
        Change::Ym(x) => (2, x),
        Change::Head(x) => (3, x),
    };
    let [ge, ym, head, x] = [r.ge, r.ym, r.head, x].map(f64::to_bits);
    format!("S {ge:x} {ym:x} {head:x} {:x} {case} {x:x}\n", r.days)
}

/// A NaN's payload is nobody's promise, so any NaN is `nan`.
fn bits_text(x: f64) -> String {
    if x.is_nan() {
        "nan".to_string()
    } else {
        format!("{:x}", x.to_bits())
    }
}

fn slip_answer(given: Ration, change: Change) -> String {
    let made = slip(given, change);
    let [ge, ym, head, kg] =
        [made.ration.ge, made.ration.ym, made.ration.head, made.kg].map(bits_text);
    format!("{:x} {ge} {ym} {head} {:x} {kg}\n", made.code, made.ration.days)
}

fn write_text(state: &State, kind: u64, values: &[u64], room: usize) -> String {
    let mut text = format!("W {} {kind:x} {room:x} {:x}", state_text(state), values.len());
    for value in values {
        let _ = write!(text, " {value:x}");
    }
    text + "\n"
}

/// Code 0 where the record is written; a refusal writes nothing and keeps the state.
fn write_answer(given: &State, kind: u64, values: &[u64], room: usize) -> String {
    let (Refusal { code, record, field }, bytes, state) = match write(given, kind, values, room) {
        Ok(wrote) => (Refusal::default(), wrote.bytes, wrote.state),
        Err(refusal) => (refusal, Vec::new(), *given),
    };
    let (a, b) = checksum(&bytes, room);
    let (written, shown, state) = (bytes.len(), hex(&bytes), state_text(&state));
    format!("{code:x} {record:x} {field:x} {written:x} {a:x} {b:x} {shown}\n{state}\n")
}

/// Code 0 where a book is saved; a refusal writes nothing into either buffer.
fn damaged_answer(damaged: &[u8], book_room: usize, list_room: usize) -> String {
    let (code, book, list) = match salvage(damaged, book_room, list_room) {
        Ok((book, list)) => (0, book, list),
        Err(code) => (code, Vec::new(), Vec::new()),
    };
    let ((a, b), (c, d)) = (checksum(&book, book_room), checksum(&list, list_room));
    let (kept, dropped) = (book.len(), list.len());
    let shown = if dropped <= MOST_SHOWN { hex(&list) } else { "-".to_string() };
    format!("{code:x} {kept:x} {dropped:x} {a:x} {b:x} {c:x} {d:x} {shown}\n")
}
