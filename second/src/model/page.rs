//! The member's page of a book: the figures of a closed one in three tables, or why there are none.

use crate::model::feed::{feed, Answer};
use crate::model::hints::hint;
use crate::model::kind;
use crate::model::page_tables::{gases, groups, sources};
use crate::model::page_texts::*;
use crate::model::programs::Told;
use crate::model::state::{State, LARGE};
use crate::model::walk::{entries, Entry, Line};
use crate::model::warming::Factors;
use crate::model::why::why;

/// A closed book: its records before the close, the factors that its farm record sets, and its total.
pub struct Book<'a> {
    pub entries: &'a [Entry],
    pub ch4_factor: i128,
    pub n2o_factor: i128,
    pub total: &'a Line,
}

impl Book<'_> {
    /// Grams of CO2e of a line's six figures.
    pub fn co2e(&self, figures: &[i128]) -> i128 {
        self.ch4_factor * figures[0] + self.n2o_factor * figures[1] + figures[2] + figures[5]
    }
}

/// Grams as kilograms: thin spaces between thousands, the grams in softer ink, and a minus sign where they are below zero.
pub fn kg(grams: i128) -> String {
    let (amount, minus) = (grams.unsigned_abs(), if grams < 0 { "\u{2212}" } else { "" });
    let digits = (amount / 1_000).to_string();
    let mut whole = String::new();
    for (place, digit) in digits.chars().enumerate() {
        if place > 0 && (digits.len() - place) % 3 == 0 {
            whole.push('\u{202f}');
        }
        whole.push(digit);
    }
    format!("{minus}{whole}<small>.{:03}</small>", amount % 1_000)
}

/// Nothing where there are none.
pub fn figure(grams: i128) -> String {
    if grams == 0 {
        String::new()
    } else {
        kg(grams)
    }
}

/// The farm and its year, as the page is named.
fn name_of(entries: &[Entry]) -> String {
    entries.first().map_or("No farm".to_string(), |farm| {
        let values = farm.values();
        format!("Farm {}, {}", values[0], values[1])
    })
}

/// What the program prints, says and ends with.
pub fn page(book: &[u8]) -> Told {
    let entries = entries(book);
    let name = name_of(&entries);
    let answer = feed(&State::default(), book, LARGE).answer;
    let title = match answer {
        Answer::Closed => "greenhouse gas statement",
        _ => "not for members",
    };
    let head = format!("{BEGIN}{name}: {title}{STYLE}{name}{MAIN}{name}{HEADER}");
    let body = match answer {
        Answer::Closed => statement(&entries),
        _ => not_for_members(book, matches!(answer, Answer::Refused(_))),
    };
    let made_from = match answer {
        Answer::Closed => CLOSED_OF,
        Answer::Refused(_) => REFUSED_OF,
        _ => OPEN_OF,
    };
    let foot = format!("{FOOTER}{name}{made_from}{}{RECORDS_END}", entries.len());
    Told {
        printed: head + &body + &foot,
        said: hint(book).to_string(),
        right: answer == Answer::Closed,
    }
}

/// One total, and three tables that each end in it.
fn statement(entries: &[Entry]) -> String {
    let (close, before) = entries.split_last().expect("a closed book has its close");
    let factors = Factors::of_farm(&entries[0].values());
    let total =
        close.line().filter(|line| line.kind == kind::CLOSE).expect("a close gives the total");
    let (ch4_factor, n2o_factor) = (factors.ch4.into(), factors.n2o.into());
    let book = Book { entries: before, ch4_factor, n2o_factor, total };
    let sum = format!("{TOTAL}{}{TOTAL_END}", kg(total.figures[6]));
    sum + &groups(&book, entries) + &sources(&book) + &gases(&book) + NOTES
}

/// Why there are no figures, in the words that the help desk has, and what to do.
fn not_for_members(book: &[u8], refused: bool) -> String {
    let said = why(book).0;
    let sentence = said.lines().nth(1).unwrap_or_default();
    let (first, last) = if refused { (NOT_REFUSED, DO_MEND) } else { (NOT_CLOSED, DO_CLOSE) };
    format!("{first}{sentence}\n{last}")
}
