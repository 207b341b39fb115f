//! The lister of document 01, "Figures to meet": a text line per line record, and a last word; signed figures by document 02, W7.

use crate::model::feed::{feed, Answer};
use crate::model::figures::signed;
use crate::model::record::number;
use crate::model::state::{State, LARGE};

/// The text for a whole book; bytes after the close are ignored.
pub fn list(book: &[u8]) -> String {
    let reply = feed(&State::default(), book, LARGE);
    let mut text = String::new();
    let mut at = 0;
    while at < reply.lines.len() {
        let end = at + 2 + number(&reply.lines[at..at + 2]) as usize;
        text.push_str(&line_text(&reply.lines[at..end]));
        at = end;
    }
    text.push_str(&last_word(reply.answer));
    text
}

/// The places of CO2 and CO2e among a line's figures.
pub const SIGNED: [usize; 2] = [2, 6];

/// Kind, group, and every 8-byte figure of one line, with a minus sign where it is below zero.
fn line_text(line: &[u8]) -> String {
    let mut words = vec![line[3].to_string(), number(&line[4..6]).to_string()];
    for (place, bytes) in line[6..].chunks(8).enumerate() {
        let figure = number(bytes) as u64;
        let minus_too = SIGNED.contains(&place);
        words.push(if minus_too { signed(figure).to_string() } else { figure.to_string() });
    }
    words.join(" ") + "\n"
}

fn last_word(answer: Answer) -> String {
    match answer {
        Answer::Closed => "closed\n".to_string(),
        Answer::Refused(r) => format!("refused {} {} {}\n", r.code, r.record, r.field),
        Answer::More => "unfinished\n".to_string(),
        Answer::Full => unreachable!("the buffer holds the lines of any book"),
    }
}
