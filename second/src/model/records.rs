//! A book's records for machines: comma-separated text, a row for each accepted record and for each subtotal.

use crate::model::kind;
use crate::model::programs::{listed, typed_line, Told};
use crate::model::walk::{entries, Entry, Line};
use crate::model::words::kind_name;

const HEADER: &str =
    "record,first,last,name,group,typed,ch4,n2o,co2,excreted,land,grazing,co2e\r\n";

/// Six figures and CO2e, which the total alone has; seven empty columns where a record gives no line.
pub fn columns(line: Option<&Line>) -> String {
    let figures = line.map_or(&[][..], |line| &line.figures);
    let column = |place| figures.get(place).map_or(String::new(), i128::to_string);
    (0..7).map(column).collect::<Vec<_>>().join(",")
}

/// The lister's last word is said, after its remark.
pub fn records(book: &[u8]) -> Told {
    let rows = entries(book).iter().map(rows_of).collect::<String>();
    let listed = listed(book);
    let last = listed.printed.lines().last().unwrap_or_default();
    Told {
        printed: HEADER.to_string() + &rows,
        said: format!("{}{last}\n", listed.said),
        right: listed.right,
    }
}

/// A record's row, after the subtotal that it gives.
fn rows_of(entry: &Entry) -> String {
    let subtotal = |line: &Line| format!(",,,subtotal,{},,{}\r\n", line.group, columns(Some(line)));
    let Entry { number, first, .. } = entry;
    let (last, kind) = (first + entry.record.len() - 1, entry.kind());
    let (name, group, typed) = (kind_name(kind.into()), group_of(entry), typed_line(&entry.record));
    let row = format!("{number},{first},{last},{name},{group},{}", typed.trim_end());
    entry.subtotal().map_or(String::new(), subtotal)
        + &format!("{row},{}\r\n", columns(entry.line()))
}

/// The group of a heading, and of what stands under one; the farm's own kinds have none.
fn group_of(entry: &Entry) -> String {
    if entry.kind() == kind::HEADING || kind::of_group(entry.kind()) {
        entry.group.to_string()
    } else {
        String::new()
    }
}
