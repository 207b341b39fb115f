//! The typed book: a text's lines one after the other, the bytes that they write and what is said of them.

mod line;
mod remarks;

use crate::model::kind;
use crate::model::state::{Refusal, State, CLOSED, OPEN};
use crate::model::writer::{write, Wrote};
use line::{read, Reading, Typed};
use remarks::{group_text, refusal_text, Remarks};

/// The byte order mark that some editors put before a text.
const MARK: &[u8] = b"\xef\xbb\xbf";

/// Room for any record.
const ROOM: usize = 64;

/// What a whole text gives: the book's bytes, what is said, and whether the book is closed.
pub struct Entered {
    pub book: Vec<u8>,
    pub said: String,
    pub right: bool,
}

/// Enters a typed text.
pub fn enter(text: &[u8]) -> Entered {
    let mut clerk = Clerk::default();
    let text = text.strip_prefix(MARK).unwrap_or(text);
    for (number, line) in (1..).zip(text.split(|&byte| byte == b'\n')) {
        clerk.line(number, line);
    }
    clerk.end()
}

/// Why the heading is lost.
#[derive(Clone, Copy)]
enum Lost {
    Heading,
    NotRead,
    Refused,
}

/// A right close that is written if no line comes after it.
struct Waiting {
    number: usize,
    wrote: Wrote,
}

/// The book as it grows, and what is to be remembered of the lines before.
#[derive(Default)]
struct Clerk {
    state: State,
    year: u64,
    book: Vec<u8>,
    remarks: Remarks,
    first_failed: Option<usize>,
    lost_by: Option<(usize, Lost)>,
    /// The first and the last line of a run without heading that goes on.
    run: Option<(usize, usize)>,
    waiting: Option<Waiting>,
    has_word: bool,
    has_close: bool,
    written: usize,
    refused: usize,
    not_read: usize,
    without_heading: usize,
}

impl Clerk {
    /// One line, by the first of the rules that applies.
    fn line(&mut self, number: usize, line: &[u8]) {
        let Some(reading) = read(line) else { return };
        self.has_word = true;
        self.has_close |= reading.kind() == Some(kind::CLOSE);
        self.give_up_close(number);
        match reading {
            Reading::Read(typed) if self.is_without_heading(&typed) => self.run_goes_on(number),
            Reading::Read(typed) => {
                self.end_run();
                self.judge(number, &typed);
            }
            Reading::NotRead { kind, why } => {
                self.end_run();
                self.note_not_read(number, kind, &why);
            }
        }
    }

    /// A close that waits is too early where this line comes after it.
    fn give_up_close(&mut self, number: usize) {
        if let Some(Waiting { number: close, .. }) = self.waiting.take() {
            self.fail(close, &format!("close too early: line {number} comes after it"));
        }
    }

    fn is_without_heading(&self, typed: &Typed) -> bool {
        self.lost_by.is_some() && kind::of(typed.kind).is_some_and(kind::of_group)
    }

    fn run_goes_on(&mut self, number: usize) {
        self.without_heading += 1;
        let (first, _) = self.run.unwrap_or((number, number));
        self.run = Some((first, number));
    }

    /// The one message on a run; the line that lost the heading has failed before it.
    fn end_run(&mut self) {
        let (Some((first, last)), Some((number, lost))) = (self.run.take(), self.lost_by) else {
            return;
        };
        let lines = if first == last {
            format!("line {first}")
        } else {
            format!("lines {first} to {last}")
        };
        let why = match lost {
            Lost::Heading => format!("the heading in line {number} was not written"),
            Lost::NotRead => format!("line {number}, which may have been a heading, was not read"),
            Lost::Refused => format!("line {number}, which may have been a heading, was refused"),
        };
        self.remarks.tell(&format!("{lines}: without heading: {why}"));
    }

    fn fail(&mut self, number: usize, words: &str) {
        self.first_failed = self.first_failed.or(Some(number));
        self.remarks.tell(&format!("line {number}: {words}"));
    }

    /// It may have been a heading, unless it is known to be of another kind of the book.
    fn note_not_read(&mut self, number: usize, kind: u64, why: &str) {
        self.not_read += 1;
        match kind::of(kind) {
            Some(kind::HEADING) => self.lost_by = Some((number, Lost::Heading)),
            None => self.lost_by = Some((number, Lost::NotRead)),
            _ => (),
        }
        self.fail(number, &format!("not read: {why}"));
    }

    /// Offers the line to the writer, unless it is a close behind a failed line.
    fn judge(&mut self, number: usize, typed: &Typed) {
        let kind = kind::of(typed.kind);
        if let (Some(kind::CLOSE), Some(failed), OPEN) = (kind, self.first_failed, self.state.stage)
        {
            let why = "failed, and a book with a failed line is not closed";
            let words = format!("line {number}: close withheld: line {failed} {why}");
            return self.remarks.tell(&words);
        }
        let values = typed.offered(self.state.records);
        match (write(&self.state, typed.kind, &values, ROOM), kind) {
            (Ok(wrote), Some(kind::CLOSE)) => self.waiting = Some(Waiting { number, wrote }),
            (Ok(wrote), Some(kind)) => {
                self.note_written(number, kind, &values);
                self.put(wrote);
            }
            (Ok(_), None) => panic!("the writer writes kinds of the book alone"),
            (Err(refusal), _) => self.note_refused(number, typed, refusal),
        }
    }

    /// What is said of a line that is written.
    fn note_written(&mut self, number: usize, kind: u8, values: &[u64]) {
        match kind {
            kind::FARM => self.year = values[1],
            kind::HEADING => {
                self.say_group();
                self.lost_by = None;
            }
            _ => self.remarks.tell_unusual(number, kind, self.state.heading.class, values),
        }
    }

    fn put(&mut self, wrote: Wrote) {
        self.written += 1;
        self.state = wrote.state;
        self.book.extend(wrote.bytes);
    }

    fn note_refused(&mut self, number: usize, typed: &Typed, refusal: Refusal) {
        self.refused += 1;
        if kind::of(typed.kind) == Some(kind::HEADING) {
            self.lost_by = Some((number, Lost::Heading));
        } else if refusal.code == 3 {
            self.lost_by = Some((number, Lost::Refused));
        }
        let words = refusal_text(&self.state, typed, refusal);
        self.fail(number, &words);
    }

    /// The group that ends here, where there is one.
    fn say_group(&mut self) {
        if self.state.heading.stands() {
            self.remarks.say(&group_text(&self.state, self.year));
        }
    }

    /// The end of the text: what is still open, what was not shown, and the verdict.
    fn end(mut self) -> Entered {
        self.end_run();
        self.say_group();
        if let Some(Waiting { wrote, .. }) = self.waiting.take() {
            self.put(wrote);
        }
        self.remarks.tell_the_rest();
        if self.has_word && !self.has_close {
            self.remarks.say("no close: the text ends without one");
        }
        let closed = self.state.stage == CLOSED;
        let verdict = self.verdict(if closed { "closed" } else { "not closed" });
        self.remarks.say(&verdict);
        Entered { book: self.book, said: self.remarks.said, right: closed }
    }

    fn verdict(&self, word: &str) -> String {
        let Clerk { written, refused, not_read, without_heading, .. } = self;
        let unusual = self.remarks.unusual;
        let failed =
            format!("{refused} refused, {not_read} not read, {without_heading} without heading");
        format!("{word}: {written} written, {failed}, {unusual} unusual")
    }
}
