//! A book's accepted records in order, each with its place and with the lines that it gives.

use crate::model::feed::{feed, Answer};
use crate::model::figures::signed;
use crate::model::kind;
use crate::model::lister::SIGNED;
use crate::model::record::{number, values_of, LENGTHS};
use crate::model::state::{State, CLOSED, LARGE};

/// One line: its kind, its group, and its figures, six or the total's seven.
#[derive(Clone, Debug, PartialEq, Eq)]
pub struct Line {
    pub kind: u8,
    pub group: u16,
    pub figures: Vec<i128>,
}

/// An accepted record: its number from 0, its first byte in the book, and the group of the heading that stands after it, or 0.
#[derive(Clone, Debug, PartialEq, Eq)]
pub struct Entry {
    pub number: usize,
    pub first: usize,
    pub group: u16,
    pub record: Vec<u8>,
    pub lines: Vec<Line>,
}

impl Entry {
    pub fn kind(&self) -> u8 {
        self.record[3]
    }

    pub fn values(&self) -> Vec<u128> {
        values_of(&self.record)
    }

    /// The subtotal of the group before it, where it ends one.
    pub fn subtotal(&self) -> Option<&Line> {
        self.lines.iter().find(|line| line.kind == kind::SUBTOTAL)
    }

    /// Its own line: a detail's, or the close's total.
    pub fn line(&self) -> Option<&Line> {
        self.lines.iter().find(|line| line.kind != kind::SUBTOTAL)
    }
}

/// How many bytes the record at the front of some bytes has, where it is whole.
fn whole(bytes: &[u8]) -> Option<usize> {
    let length = number(bytes.get(..2)?) as u16;
    let size = 2 + usize::from(length);
    (LENGTHS.contains(&length) && bytes.len() >= size).then_some(size)
}

/// The records of some bytes up to the first that is not whole, accepted or not.
pub fn records_of(mut bytes: &[u8]) -> Vec<Vec<u8>> {
    let mut records = Vec::new();
    while let Some(size) = whole(bytes) {
        records.push(bytes[..size].to_vec());
        bytes = &bytes[size..];
    }
    records
}

/// The accepted records of a book; those after the close are none of it.
pub fn entries(book: &[u8]) -> Vec<Entry> {
    let mut state = State::default();
    let (mut first, mut entries) = (0, Vec::new());
    for record in records_of(book) {
        let reply = feed(&state, &record, LARGE);
        if state.stage == CLOSED || matches!(reply.answer, Answer::Refused(_)) {
            break;
        }
        state = reply.state;
        let (number, size) = (entries.len(), record.len());
        let (group, lines) = (state.heading.group, lines_of(&reply.lines));
        entries.push(Entry { number, first, group, record, lines });
        first += size;
    }
    entries
}

fn lines_of(mut bytes: &[u8]) -> Vec<Line> {
    let mut lines = Vec::new();
    while !bytes.is_empty() {
        let (line, rest) = bytes.split_at(2 + number(&bytes[..2]) as usize);
        lines.push(line_of(line));
        bytes = rest;
    }
    lines
}

fn line_of(line: &[u8]) -> Line {
    let figure = |(place, bytes): (usize, &[u8])| {
        let word = number(bytes);
        if SIGNED.contains(&place) {
            signed(word as u64).into()
        } else {
            word as i128
        }
    };
    let figures = line[6..].chunks(8).enumerate().map(figure).collect();
    Line { kind: line[3], group: number(&line[4..6]) as u16, figures }
}
