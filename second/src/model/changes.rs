//! The records of two parts against each other: which are the same, which have changed, and the words for it.

use crate::model::compare::Part;
use crate::model::fields::{spoken_of, with_decimals, Spoken};
use crate::model::kind;
use crate::model::walk::{Entry, Line};
use crate::model::words::kind_name;

/// The figures of a line as people name them; the last is the total's alone.
pub const FIGURES: [&str; 7] =
    ["CH4", "N2O", "CO2", "N excreted", "N for land", "grazing CO2e", "CO2e"];

/// Which of the two books.
#[derive(Clone, Copy)]
pub enum Word {
    Old,
    New,
}

/// Grams as kilograms with three decimals.
pub fn kilograms(grams: i128) -> String {
    let minus = if grams < 0 { "-" } else { "" };
    format!("{minus}{}", with_decimals(grams.unsigned_abs(), 3))
}

/// Each figure that differs, with the difference.
pub fn figures_now(old: &Line, new: &Line) -> String {
    let pairs = FIGURES.iter().zip(old.figures.iter().zip(&new.figures));
    let said = |(name, (&x, &y)): (&&str, (&i128, &i128))| {
        let sign = if y > x { "+" } else { "" };
        let (old, new, more) = (kilograms(x), kilograms(y), kilograms(y - x));
        format!("  {name} {old} kg, now {new}, {sign}{more}\n")
    };
    pairs.filter(|(_, (x, y))| x != y).map(said).collect()
}

/// Each figure that is not 0.
pub fn figures_alone(line: &Line) -> String {
    let named = FIGURES.iter().zip(&line.figures).filter(|(_, &grams)| grams != 0);
    named.map(|(name, &grams)| format!("  {name} {} kg\n", kilograms(grams))).collect()
}

/// The figures of a record's own line, where a detail gives one.
fn own_figures(entry: &Entry) -> String {
    match entry.kind() {
        kind::FARM | kind::HEADING => String::new(),
        _ => entry.line().map_or(String::new(), figures_alone),
    }
}

/// `GE 300.00 MJ`.
fn value_text(field: &Spoken, value: u128) -> String {
    let unit = if field.unit.is_empty() { String::new() } else { format!(" {}", field.unit) };
    format!("{} {}{unit}", field.name, field.typed(value))
}

fn fields_of(entry: &Entry) -> &'static [Spoken] {
    spoken_of(entry.kind().into(), entry.values().len())
}

/// A record that stands against none.
pub fn record_alone(word: Word, entry: &Entry) -> String {
    let values = entry.values();
    let fields = fields_of(entry).iter().zip(values).map(|(field, value)| value_text(field, value));
    let fields = fields.collect::<Vec<_>>().join("; ");
    let word = match word {
        Word::Old => "old",
        Word::New => "new",
    };
    let (number, name) = (entry.number, kind_name(entry.kind().into()));
    format!("{word} record {number}, {name}: {fields}\n{}", own_figures(entry))
}

/// The values that differ between two records of one row.
fn record_changed(old: &Entry, new: &Entry) -> String {
    let values = old.values().into_iter().zip(new.values());
    let fields = fields_of(old).iter().zip(values).filter(|(_, (v, w))| v != w);
    let said =
        fields.map(|(field, (v, w))| format!("{}, now {}", value_text(field, v), field.typed(w)));
    let said = said.collect::<Vec<_>>().join("; ");
    let now =
        if old.number == new.number { String::new() } else { format!(", now {}", new.number) };
    format!("record {}{now}, {}: {said}\n", old.number, kind_name(old.kind().into()))
}

/// One record against another that is not the same: of another row each is alone.
fn one_by_one(old: &Entry, new: &Entry) -> String {
    if old.record[2..4] != new.record[2..4] {
        return record_alone(Word::Old, old) + &record_alone(Word::New, new);
    }
    let figures = match (old.line(), new.line()) {
        (Some(x), Some(y)) => figures_now(x, y),
        _ => String::new(),
    };
    record_changed(old, new) + &figures
}

/// Whether two runs are the same details in another order.
fn in_another_order(old: &[Entry], new: &[Entry]) -> bool {
    let is_detail =
        |entry: &Entry| !matches!(entry.kind(), kind::FARM | kind::HEADING | kind::CLOSE);
    let sorted = |entries: &[Entry]| {
        let mut records: Vec<Vec<u8>> = entries.iter().map(|entry| entry.record.clone()).collect();
        records.sort();
        records
    };
    !old.is_empty() && old.iter().chain(new).all(is_detail) && sorted(old) == sorted(new)
}

fn order_text(old: &[Entry], new: &[Entry], same_heading: bool) -> String {
    let ends = |entries: &[Entry]| (entries[0].number, entries[entries.len() - 1].number);
    let ((i, j), (k, l)) = (ends(old), ends(new));
    let now = if i == k { String::new() } else { format!(", now {k} to {l}") };
    let lines = if same_heading { "with the same lines" } else { "under a changed heading" };
    format!("records {i} to {j} are the same in another order{now}, {lines}\n")
}

/// Those that stand between what is the same at the beginning and at the end.
fn middle(old: &[Entry], new: &[Entry], same_heading: bool) -> String {
    if in_another_order(old, new) {
        return order_text(old, new, same_heading);
    }
    if old.len() == new.len() {
        let differ = old.iter().zip(new).filter(|(x, y)| x.record != y.record);
        return differ.map(|(x, y)| one_by_one(x, y)).collect();
    }
    let all = |word, entries: &[Entry]| -> String {
        entries.iter().map(|entry| record_alone(word, entry)).collect()
    };
    all(Word::Old, old) + &all(Word::New, new)
}

/// How many pairs of the same record give other lines.
fn other_lines<'a>(pairs: impl Iterator<Item = (&'a Entry, &'a Entry)>) -> usize {
    pairs.filter(|(x, y)| x.record == y.record && x.lines != y.lines).count()
}

/// What differs between the headings and the details of two parts.
pub fn between(old: &Part, new: &Part) -> String {
    let (a, b) = (old.details, new.details);
    let same = |(x, y): &(&Entry, &Entry)| x.record == y.record;
    let front = a.iter().zip(b).take_while(same).count();
    let (x, y) = (&a[front..], &b[front..]);
    let back = x.iter().rev().zip(y.iter().rev()).take_while(same).count();
    let (x, y) = (&x[..x.len() - back], &y[..y.len() - back]);
    let headings = match (old.heading, new.heading) {
        (Some(h), Some(g)) if h.record != g.record => record_changed(h, g),
        _ => String::new(),
    };
    let at_the_ends = a[..front].iter().zip(b).chain(a.iter().rev().zip(b.iter().rev()).take(back));
    let mut others = other_lines(at_the_ends);
    if x.len() == y.len() && !in_another_order(x, y) {
        others += other_lines(x.iter().zip(y));
    }
    let others = match others {
        0 => String::new(),
        1 => "1 record is the same and gives another line\n".to_string(),
        count => format!("{count} records are the same and give other lines\n"),
    };
    let same_heading = headings.is_empty();
    headings + &middle(x, y, same_heading) + &others
}
