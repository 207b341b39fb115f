//! The table of kinds for machines (comma-separated text, a row for each field), without its last column: what the help says is decided by hand.

use crate::model::fields::{spoken_of, with_decimals, Spoken};
use crate::model::kind;
use crate::model::record::{fields_of, Field};
use crate::model::usual::{usual_at, Usual};
use crate::model::words::kind_name;

const HEADER: &str =
    "row,kind,version,name,field,label,decimals,lowest,highest,unit,choices,usual\r\n";

/// The farm record of version 2 has the row after those of the kinds.
pub fn table() -> String {
    let first = kind::ALL.map(|k| (k, k, 1));
    let rows = first.chain([(kind::GRAZING + 1, kind::FARM, 2)]);
    let texts = rows.map(|(row, kind, version)| row_text(row, kind, version));
    HEADER.to_string() + &texts.collect::<String>()
}

fn row_text(row: u8, kind: u8, version: u8) -> String {
    let fields = fields_of(kind, version);
    let spoken = spoken_of(kind.into(), fields.len());
    let front = format!("{row},{kind},{version},{}", kind_name(kind.into()));
    let cells = |(place, (field, said)): (usize, (&Field, &Spoken))| {
        format!("{front},{},{}\r\n", place + 1, field_text(kind, place, field, said))
    };
    fields.iter().zip(spoken).enumerate().map(cells).collect()
}

fn field_text(kind: u8, place: usize, field: &Field, said: &Spoken) -> String {
    let (low, high) = (said.said(field.low.into()), said.said(field.high.into()));
    let (name, decimals, unit) = (said.name, said.decimals, said.unit);
    let words = said.choices.join("|");
    format!("{name},{decimals},{low},{high},{unit},{words},{}", usual_text(kind, place, decimals))
}

/// The usual ranges of each class or column, or the one that holds for all.
fn usual_text(kind: u8, place: usize, decimals: usize) -> String {
    let of = |which: u8| usual_at(kind, which, &[which.into(); 12], place);
    match of(1) {
        None => String::new(),
        Some(usual @ Usual { whose: None, .. }) => range_text(&usual, decimals),
        _ => (1..=3).filter_map(of).map(|u| range_text(&u, decimals)).collect::<Vec<_>>().join("|"),
    }
}

fn range_text(usual: &Usual, decimals: usize) -> String {
    let whose = usual.whose.map_or(String::new(), |word| format!("{word} "));
    format!("{whose}{} {}", shortest(usual.low, decimals), shortest(usual.high, decimals))
}

/// A number without the zeros that it can do without.
fn shortest(value: u64, decimals: usize) -> String {
    let text = with_decimals(value.into(), decimals);
    match decimals {
        0 => text,
        _ => text.trim_end_matches('0').trim_end_matches('.').to_string(),
    }
}
