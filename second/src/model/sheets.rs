//! Document 02, W13: line records as a sheet for the spreadsheet, and back.

use crate::model::feed::feed;
use crate::model::programs::listed;
use crate::model::sheet_faults::fault;
use crate::model::state::{State, LARGE};
use crate::model::words::sentence;

pub const HEADER: &str = "kind,group,ch4,n2o,co2,excreted,land,grazing,co2e\r\n";

/// The most bytes of a sheet that `unsheet` reads: 4,096 rows, the header among them, none of a book as long as 64 bytes.
const MOST_SHEET: usize = 4_096 * 64;

/// The most bytes of lines that `sheet_lines` reads: what a book of 4,096 records gives at most, 4,094 lines and the close's.
const MOST_LINES: usize = 4_094 * 54 + 62;

/// A refusal's number, and its row where it has one.
pub struct Refusal {
    code: u8,
    row: Option<usize>,
}

/// The kinds that a line has.
fn is_kind(kind: u64) -> bool {
    (3..=10).contains(&kind) || kind == 16
}

/// The bytes of a line of this kind: only the total has a CO2e.
pub fn line_size(kind: u8) -> usize {
    if kind == 8 {
        62
    } else {
        54
    }
}

/// The row of a whole line.
pub fn row(line: &[u8]) -> String {
    let word = |at: usize| u64::from_be_bytes(line[at..at + 8].try_into().expect("eight bytes"));
    let co2e = if line[3] == 8 { (word(54) as i64).to_string() } else { String::new() };
    let group = u16::from_be_bytes([line[4], line[5]]);
    let (ch4, n2o, co2) = (word(6), word(14), word(22) as i64);
    let (excreted, land, grazing) = (word(30), word(38), word(46));
    format!("{},{group},{ch4},{n2o},{co2},{excreted},{land},{grazing},{co2e}\r\n", line[3])
}

/// The sheet of a run of lines.
pub fn export(lines: &[u8]) -> Result<Vec<u8>, Refusal> {
    let mut text = HEADER.to_string();
    let mut rest = lines;
    while !rest.is_empty() {
        let whole =
            rest.len() >= 4 && rest.len() >= line_size(rest[3]) && is_kind(u64::from(rest[3]));
        if !whole || rest[..3] != [0, line_size(rest[3]) as u8 - 2, 1] {
            return Err(Refusal { code: 23, row: None });
        }
        let (line, behind) = rest.split_at(line_size(rest[3]));
        text += &row(line);
        rest = behind;
    }
    Ok(text.into_bytes())
}

/// Whether a column is a number as it is to be written.
fn is_number(column: &str, signed: bool) -> bool {
    let digits = match column.strip_prefix('-') {
        Some(amount) if signed && amount != "0" => amount,
        _ => column,
    };
    let right = !digits.is_empty() && digits.bytes().all(|b| b.is_ascii_digit());
    right && (digits == "0" || !digits.starts_with('0'))
}

/// The columns of a row of the form.
fn columns(row: &[u8]) -> Option<Vec<&str>> {
    let row = std::str::from_utf8(row.strip_suffix(b"\r")?).ok()?;
    let columns: Vec<&str> = row.split(',').collect();
    let total = columns[0] == "8";
    let right = columns.len() == 9
        && columns[..8].iter().enumerate().all(|(at, column)| is_number(column, at == 4))
        && if total { is_number(columns[8], true) } else { columns[8].is_empty() };
    right.then_some(columns)
}

/// The line of a row whose numbers are inside their fields.
fn line(columns: &[&str]) -> Option<Vec<u8>> {
    let kind: u64 = columns[0].parse().ok()?;
    let group: u16 = columns[1].parse().ok()?;
    if !is_kind(kind) {
        return None;
    }
    let kind = kind as u8;
    let mut line = vec![0, line_size(kind) as u8 - 2, 1, kind];
    line.extend(group.to_be_bytes());
    for (at, column) in columns.iter().enumerate().skip(2) {
        match at {
            4 => line.extend(column.parse::<i64>().ok()?.to_be_bytes()),
            8 if column.is_empty() => {}
            8 => line.extend(column.parse::<i64>().ok()?.to_be_bytes()),
            _ => line.extend(column.parse::<u64>().ok()?.to_be_bytes()),
        }
    }
    Some(line)
}

/// The lines of a sheet, and how many they are.
pub fn import(text: &[u8]) -> Result<(Vec<u8>, usize), Refusal> {
    let refused = |code, row| Err(Refusal { code, row: Some(row) });
    let Some(mut rest) = text.strip_prefix(HEADER.as_bytes()) else {
        return refused(20, 1);
    };
    let mut lines = Vec::new();
    let mut at = 2;
    while !rest.is_empty() {
        let Some(feed) = rest.iter().position(|&b| b == b'\n') else {
            return refused(20, at);
        };
        let Some(columns) = columns(&rest[..feed]) else {
            return refused(20, at);
        };
        let Some(line) = line(&columns) else {
            return refused(21, at);
        };
        lines.extend(line);
        rest = &rest[feed + 1..];
        at += 1;
    }
    Ok((lines, at - 2))
}

/// What a program writes, what it says, and whether its status is 0.
pub type Told = (Vec<u8>, String, bool);

/// A sentence for people, and then the line for machines.
fn refused(text: &[u8], Refusal { code, row }: Refusal) -> Told {
    let people = match (code, row) {
        (20, Some(row)) => fault(text, row),
        (_, Some(row)) => format!("row {row}: {}", sentence(code)),
        (_, None) => sentence(code).to_string(),
    };
    let row = row.map(|row| format!(" row {row}")).unwrap_or_default();
    (Vec::new(), format!("{people}\nrefused {code}{row}\n"), false)
}

fn too_long(what: &str, most: usize) -> Told {
    (Vec::new(), format!("the {what} longer than {most} bytes: nothing is written\n"), false)
}

/// What `sheet_lines` does with these bytes.
pub fn sheeted(lines: &[u8]) -> Told {
    if lines.len() > MOST_LINES {
        return too_long("lines are", MOST_LINES);
    }
    match export(lines) {
        Ok(text) => {
            let rows = text.iter().filter(|&&b| b == b'\n').count();
            (text, format!("{} lines\n", rows - 1), true)
        }
        Err(refusal) => refused(lines, refusal),
    }
}

/// What `unsheet` does with this text.
pub fn unsheeted(text: &[u8]) -> Told {
    if text.len() > MOST_SHEET {
        return too_long("sheet is", MOST_SHEET);
    }
    match import(text) {
        Ok((lines, count)) => (lines, format!("{count} lines\n"), true),
        Err(refusal) => refused(text, refusal),
    }
}

/// What `sheet` does with a book: its lines as a sheet; the lister's last word is said, and its remark.
pub fn booksheet(book: &[u8]) -> Told {
    let lines = feed(&State::default(), book, LARGE).lines;
    let Ok(text) = export(&lines) else { unreachable!("a book's lines are whole lines") };
    let listed = listed(book);
    let last = listed.printed.lines().last().unwrap_or_default().to_string();
    (text, listed.said.clone() + &last + "\n", listed.right)
}
