//! Many books in one table for machines: comma-separated text, a row for each file, and their sums.

use crate::model::feed::{feed, Answer};
use crate::model::lister::SIGNED;
use crate::model::records::columns;
use crate::model::state::{State, LARGE};
use crate::model::walk::{entries, Line};

const HEADER: &str = "file,farm,year,state,records,ch4,n2o,co2,excreted,land,grazing,co2e\r\n";

/// A file's name that a row can't have, or none at all.
pub fn misused(names: &[&str]) -> bool {
    names.is_empty() || names.iter().any(|name| name.contains([',', '"', '\r', '\n']))
}

/// The table of files, each with its bytes where it could be read; and whether all are closed.
pub fn table(files: &[(&str, Option<Vec<u8>>)]) -> (String, bool) {
    let rows: Vec<(String, Option<Line>)> = files.iter().map(row).collect();
    let totals: Vec<Line> = rows.iter().filter_map(|(_, total)| total.clone()).collect();
    let text: String = rows.iter().map(|(text, _)| text.as_str()).collect();
    (HEADER.to_string() + &text + &last_row(&totals), totals.len() == files.len())
}

/// A file's row, and its total where it is a closed book.
fn row((name, bytes): &(&str, Option<Vec<u8>>)) -> (String, Option<Line>) {
    let Some(book) = bytes else {
        return (format!("{name},,,unreadable,,{}\r\n", columns(None)), None);
    };
    let entries = entries(book);
    let farm = entries.first().map_or(",".to_string(), |farm| {
        let values = farm.values();
        format!("{},{}", values[0], values[1])
    });
    let (state, closed) = match feed(&State::default(), book, LARGE).answer {
        Answer::Closed => ("closed".to_string(), true),
        Answer::Refused(refusal) => (format!("refused {}", refusal.code), false),
        _ => ("unfinished".to_string(), false),
    };
    let total = entries.last().filter(|_| closed).and_then(|close| close.line().cloned());
    let figures = columns(total.as_ref());
    (format!("{name},{farm},{state},{},{figures}\r\n", entries.len()), total)
}

/// How many books are closed, and the sums over them; a sum that eight bytes can't hold is left empty.
fn last_row(totals: &[Line]) -> String {
    let sum = |place: usize| -> i128 { totals.iter().map(|total| total.figures[place]).sum() };
    let column = |place: usize| {
        let sum = sum(place);
        let fits = match SIGNED.contains(&place) {
            true => i64::try_from(sum).is_ok(),
            false => u64::try_from(sum).is_ok(),
        };
        if fits {
            sum.to_string()
        } else {
            String::new()
        }
    };
    let columns: Vec<String> = (0..7).map(column).collect();
    format!("all,,,,{},{}\r\n", totals.len(), columns.join(","))
}
