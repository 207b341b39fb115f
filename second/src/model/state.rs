//! Document 01, "Lines, calls and state", with document 02's W2, W10 and W11: what a state holds, the ranges it must lie in, and the sizes of lines.

use crate::model::figures::{Figures, Subtotal};
use crate::model::record::LENGTHS;
use crate::model::warming::{self, Factors};

pub const NO_RECORD: u8 = 0;
pub const OPEN: u8 = 1;
pub const CLOSED: u8 = 2;
pub const REFUSED: u8 = 3;

/// The most records of a book, the close among them.
pub const MOST_RECORDS: u16 = 4_096;

/// The bytes of a detail record's line or a subtotal, and of the total.
pub const LINE: usize = 54;
pub const TOTAL: usize = 62;

/// With so much room any input byte can be taken: a close's subtotal and total fit.
pub const SURE: usize = LINE + TOTAL;

/// Room for the lines of any book.
pub const LARGE: usize = TOTAL * MOST_RECORDS as usize;

/// The last heading, its day sums for kinds 3, 4 and 5, and the sum of its grazing fractions; all zero where there is none.
#[derive(Clone, Copy, Debug, Default, PartialEq, Eq)]
pub struct Heading {
    pub group: u16,
    pub class: u8,
    pub head: u16,
    pub days: [u16; 3],
    pub grazed: u16,
}

impl Heading {
    /// Whether there is a heading: groups are numbered from 1.
    pub fn stands(&self) -> bool {
        self.group > 0
    }
}

#[derive(Clone, Copy, Debug, Default, PartialEq, Eq)]
pub struct Refusal {
    pub code: u8,
    pub record: u16,
    pub field: u8,
}

/// Any state can be offered, so `held_count` may be any number and says nothing about `held` by itself.
#[derive(Clone, Copy, Debug, Default, PartialEq, Eq)]
pub struct State {
    pub stage: u8,
    pub records: u16,
    pub factors: Factors,
    pub heading: Heading,
    pub subtotal: Subtotal,
    pub sums: Figures,
    pub refusal: Refusal,
    pub held_count: u64,
    pub held: [u8; 27],
}

impl State {
    /// The length that the first two held bytes state.
    pub fn held_length(&self) -> u16 {
        u16::from_be_bytes([self.held[0], self.held[1]])
    }

    /// The state without its held bytes.
    pub fn empty_handed(&self) -> State {
        State { held_count: 0, held: [0; 27], ..*self }
    }

    /// Whether refusal 13 spares this state.
    pub fn in_range(&self) -> bool {
        self.records_in_range()
            && self.held_in_range()
            && self.factors_in_range()
            && self.heading_in_range()
            && self.subtotal_in_range()
            && self.figures_in_range(&self.sums)
            && self.refusal_in_range()
    }

    fn records_in_range(&self) -> bool {
        let fewest_to_most = match self.stage {
            NO_RECORD => 0..=0,
            OPEN => 1..=MOST_RECORDS,
            CLOSED => 2..=MOST_RECORDS,
            REFUSED => 0..=MOST_RECORDS,
            _ => return false,
        };
        fewest_to_most.contains(&self.records)
    }

    fn held_in_range(&self) -> bool {
        if self.held_count > 27 {
            return false;
        }
        let unused_zero = self.held[self.held_count as usize..].iter().all(|&byte| byte == 0);
        let may_hold = self.stage == NO_RECORD || self.stage == OPEN;
        let length = self.held_length();
        let unfinished = self.held_count < 2
            || (LENGTHS.contains(&length) && self.held_count < 2 + u64::from(length));
        unused_zero && (may_hold || self.held_count == 0) && unfinished
    }

    /// Both zero exactly with no records.
    fn factors_in_range(&self) -> bool {
        if self.records == 0 {
            self.factors == warming::NONE
        } else {
            self.factors.in_range()
        }
    }

    fn heading_in_range(&self) -> bool {
        let heading = &self.heading;
        if *heading == Heading::default() {
            return true;
        }
        self.records >= 2
            && heading.group >= 1
            && (1..=4).contains(&heading.class)
            && heading.head <= 20_000
            && heading.days.iter().all(|&days| days <= 366)
            && heading.grazed <= 10_000
    }

    /// Bounded as the sums, and zero where there is no heading.
    fn subtotal_in_range(&self) -> bool {
        if self.heading.stands() {
            self.figures_in_range(&self.subtotal.figures())
        } else {
            self.subtotal == Subtotal::default()
        }
    }

    /// At most what so many records can give, CO2 on both sides of zero.
    fn figures_in_range(&self, figures: &Figures) -> bool {
        let records = u64::from(self.records);
        let (grams, n2o, co2) = (100_000_000_000, 10_000_000_000, 10_000_000_000_000);
        figures.ch4 <= records * grams
            && figures.excreted <= records * grams
            && figures.land <= records * grams
            && figures.grazing <= records * grams
            && figures.n2o <= records * n2o
            && figures.co2.unsigned_abs() <= records * co2
    }

    fn refusal_in_range(&self) -> bool {
        let refusal = &self.refusal;
        if self.stage != REFUSED {
            return *refusal == Refusal::default();
        }
        let field_fits =
            if refusal.code == 7 { (1..=12).contains(&refusal.field) } else { refusal.field == 0 };
        (1..=12).contains(&refusal.code) && refusal.record == self.records && field_fits
    }
}
