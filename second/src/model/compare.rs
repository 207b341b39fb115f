//! What differs between two books, by groups, once more, from the written decision alone.

use crate::model::changes::{between, figures_alone, figures_now, record_alone, Word};
use crate::model::hints::hint;
use crate::model::kind;
use crate::model::walk::{entries, Entry, Line};
use crate::model::why::why;

/// A heading with what stands under it and its subtotal; what stands before the first heading has neither.
#[derive(Clone, Copy)]
pub struct Part<'a> {
    pub heading: Option<&'a Entry>,
    pub details: &'a [Entry],
    subtotal: Option<&'a Line>,
}

impl Part<'_> {
    fn group(&self) -> u16 {
        self.heading.map_or(0, |heading| heading.group)
    }
}

/// A book's accepted records, cut at its headings and before its close.
struct Cut<'a> {
    before: Part<'a>,
    groups: Vec<Part<'a>>,
    total: Option<&'a Line>,
}

fn cut(entries: &[Entry]) -> Cut<'_> {
    let close = entries.last().filter(|last| last.kind() == kind::CLOSE);
    let open = entries.len() - usize::from(close.is_some());
    let is_heading = |&at: &usize| entries[at].kind() == kind::HEADING;
    let starts: Vec<usize> = (0..open).filter(is_heading).collect();
    let end_of = |place: usize| starts.get(place).copied().unwrap_or(open);
    let group = |(place, &start): (usize, &usize)| {
        let end = end_of(place + 1);
        let subtotal = entries.get(end).and_then(|next| next.lines.first());
        Part { heading: Some(&entries[start]), details: &entries[start + 1..end], subtotal }
    };
    Cut {
        before: Part { heading: None, details: &entries[..end_of(0)], subtotal: None },
        groups: starts.iter().enumerate().map(group).collect(),
        total: close.and_then(|close| close.lines.last()),
    }
}

/// A section with its first line, where it has anything to say.
fn section(first: &str, said: String) -> String {
    if said.is_empty() {
        said
    } else {
        format!("{first}\n{said}")
    }
}

/// What the program prints of two books.
pub fn compare(old: &[u8], new: &[u8]) -> String {
    let (a, b) = (entries(old), entries(new));
    let (old_cut, new_cut) = (cut(&a), cut(&b));
    let verdict = |book| why(book).0.lines().next().unwrap_or_default().to_string();
    let mut said = format!("old: {}\nnew: {}\n", verdict(old), verdict(new));
    said += &section("before the groups:", both(&old_cut.before, &new_cut.before));
    said += &groups(&old_cut.groups, &new_cut.groups);
    said += &sums("total", old_cut.total, new_cut.total);
    let records = |entries: &[Entry]| -> Vec<Vec<u8>> {
        entries.iter().map(|entry| entry.record.clone()).collect()
    };
    said += match (old == new, records(&a) == records(&b)) {
        (true, _) => "nothing differs\n",
        (_, true) => "no accepted record differs\n",
        _ => "all else is the same\n",
    };
    said
}

/// The groups of both by rising number: equal numbers make a pair, else the lower one is alone in its book.
fn groups(mut old: &[Part], mut new: &[Part]) -> String {
    let mut said = String::new();
    loop {
        let numbers = [old.first(), new.first()].map(|part| part.map(Part::group));
        let Some(group) = numbers.iter().flatten().min() else {
            return said;
        };
        let here = numbers.map(|number| number == Some(*group));
        said += &match here {
            [true, true] => section(&format!("group {group}:"), both(&old[0], &new[0])),
            [true, _] => format!("group {group}, removed:\n{}", alone(Word::Old, &old[0])),
            _ => format!("group {group}, added:\n{}", alone(Word::New, &new[0])),
        };
        old = &old[usize::from(here[0])..];
        new = &new[usize::from(here[1])..];
    }
}

/// A group that one book alone has.
fn alone(word: Word, part: &Part) -> String {
    let records = part.heading.into_iter().chain(part.details);
    let said: String = records.map(|entry| record_alone(word, entry)).collect();
    let (old, new) = match word {
        Word::Old => (part.subtotal, None),
        Word::New => (None, part.subtotal),
    };
    said + &sums("subtotal", old, new)
}

/// A pair of parts: headings, details, and subtotals.
fn both(old: &Part, new: &Part) -> String {
    between(old, new) + &sums("subtotal", old.subtotal, new.subtotal)
}

/// Two subtotals or totals, or the one that is there.
fn sums(name: &str, old: Option<&Line>, new: Option<&Line>) -> String {
    match (old, new) {
        (Some(old), Some(new)) => section(&format!("{name}:"), figures_now(old, new)),
        (Some(line), None) => format!("{name}, only in old:\n{}", figures_alone(line)),
        (None, Some(line)) => format!("{name}, only in new:\n{}", figures_alone(line)),
        (None, None) => String::new(),
    }
}

/// A hint where one of the two is no book.
pub fn hints(old: &[u8], new: &[u8]) -> String {
    let hinted = [("old", old), ("new", new)].map(|(word, book)| (word, hint(book)));
    hinted
        .iter()
        .filter(|(_, hint)| !hint.is_empty())
        .map(|(word, hint)| format!("{word}: {hint}"))
        .collect()
}
