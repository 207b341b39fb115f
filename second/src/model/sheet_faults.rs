//! What is wrong with a text that is no sheet, in words: the row, the column, its cell and what to do.

use crate::model::sheets::HEADER;

const MARK: &str =
    "a byte order mark stands before the sheet: save it as CSV without one, not as CSV UTF-8";
const QUOTES: &str = "cells have no quotes, and here are some: save it as CSV without quotes";
const SEMICOLONS: &str =
    "cells are separated by commas, and here are semicolons: save it as CSV with commas";
const LINE_FEED: &str =
    "the row ends in a line feed alone: save it as CSV with CRLF, the line ends of Windows";
const NO_END: &str = "the last row has no line end: each row ends in CRLF, the last one too";
const NUMBER: &str =
    "expected a whole number without leading zeros (co2 may have a minus sign), then a comma";
const NOTHING: &str = "expected nothing before the end of the row: only a row of kind 8 has a co2e";
const TOTAL: &str =
    "expected a whole number without leading zeros, perhaps with a minus sign, then the end of the row";

/// The place of the last column and of those that may have a minus sign.
const LAST: usize = 8;
const SIGNED: [usize; 2] = [4, LAST];

fn names() -> &'static str {
    HEADER.trim_end()
}

/// The words for refusal 20 of this row, the header's being 1.
pub fn fault(text: &[u8], row: usize) -> String {
    if row == 1 {
        return format!("row 1: {}", in_header(text));
    }
    let feeds = text.iter().enumerate().filter(|(_, &byte)| byte == b'\n');
    let start = feeds.map(|(at, _)| at + 1).nth(row - 2).expect("the rows before it have ended");
    let (column, kind, rest) = first_bad(&text[start..]);
    let name = names().split(',').nth(column).expect("a sheet has nine columns");
    let end = rest.iter().position(|byte| b",\r\n".contains(byte)).unwrap_or(rest.len());
    let words = in_cell(&rest[..end], column, kind, rest);
    format!("row {row}, column {name}: \"{}\": {words}", shown(&rest[..end]))
}

/// A cell's first 24 bytes, with a question mark for each that is not to be seen, as of a typed word; a blank is one of them.
fn shown(cell: &[u8]) -> String {
    let show = |&byte: &u8| if (33..=126).contains(&byte) { char::from(byte) } else { '?' };
    cell.iter().take(24).map(show).collect()
}

fn in_header(text: &[u8]) -> String {
    let end = text.iter().position(|byte| b"\r\n".contains(byte)).unwrap_or(text.len());
    let line = &text[..end];
    if text.starts_with(b"\xef\xbb\xbf") {
        MARK.to_string()
    } else if line.contains(&b'"') {
        QUOTES.to_string()
    } else if line.contains(&b';') {
        SEMICOLONS.to_string()
    } else if text.strip_prefix(names().as_bytes()).is_some_and(|rest| rest.starts_with(b"\n")) {
        LINE_FEED.to_string()
    } else if text == names().as_bytes() {
        NO_END.to_string()
    } else {
        format!("the first row has to be {}", names())
    }
}

/// How many bytes a right number at the front has, perhaps with a minus sign; 0 where there is none.
fn number_size(bytes: &[u8], signed: bool) -> usize {
    let minus = usize::from(signed && bytes.first() == Some(&b'-'));
    let digits = bytes[minus..].iter().take_while(|byte| byte.is_ascii_digit()).count();
    match bytes.get(minus) {
        Some(b'0') if minus == 0 => 1,
        Some(b'1'..=b'9') => minus + digits,
        _ => 0,
    }
}

/// The first column whose number or end is not there, the row's kind, and the bytes from that column on.
fn first_bad(row: &[u8]) -> (usize, u8, &[u8]) {
    let (mut rest, mut kind) = (row, 0);
    for column in 0..LAST {
        let size = number_size(rest, SIGNED.contains(&column));
        if column == 0 {
            kind = String::from_utf8_lossy(&rest[..size]).parse().unwrap_or(0);
        }
        if size == 0 || rest.get(size) != Some(&b',') {
            return (column, kind, rest);
        }
        rest = &rest[size + 1..];
    }
    (LAST, kind, rest)
}

/// What is wrong with a cell; in the last column a row may be right up to its end.
fn in_cell(cell: &[u8], column: usize, kind: u8, rest: &[u8]) -> &'static str {
    let total = kind == 8;
    let size = if total { number_size(rest, true) } else { 0 };
    let right = total == (size > 0);
    if cell.contains(&b'"') {
        QUOTES
    } else if cell.contains(&b';') {
        SEMICOLONS
    } else if column < LAST {
        NUMBER
    } else if right && rest.get(size) == Some(&b'\n') {
        LINE_FEED
    } else if right && rest.len() == size {
        NO_END
    } else if total {
        TOTAL
    } else {
        NOTHING
    }
}
