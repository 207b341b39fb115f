//! Document 01, "Refusal numbers, in the order they are tried": what one whole record does, from 2 to 12;
//! document 02's W2: subtotals; W7: tillage; W10: grazing; W11: a farm record of version 2.

use crate::model::figures::{self, Figures, Subtotal};
use crate::model::grazing;
use crate::model::kind;
use crate::model::record::{big_endian, fields_with, has_version, length_of, values_of};
use crate::model::state::{Heading, State, CLOSED, MOST_RECORDS, OPEN};
use crate::model::tillage;
use crate::model::warming::Factors;

/// A record's refusal: code, and field where the code is 7.
pub type Fault = (u8, u8);

/// An accepted record: the state after it and the bytes of its lines, which fit together or not at all.
pub struct Accepted {
    pub state: State,
    pub lines: Vec<u8>,
}

/// Judges a record whose bytes are all there and whose length is 4..26; the state's held bytes don't matter.
pub fn judge(state: &State, record: &[u8]) -> Result<Accepted, Fault> {
    let kind = kind_of(record)?;
    judge_values(state, kind, &values_of(record))
}

/// Judges the values of a kind 1..10, as many as it has fields in one of its versions: from 5 to 12.
pub fn judge_values(state: &State, kind: u8, values: &[u128]) -> Result<Accepted, Fault> {
    in_its_place(state, kind)?;
    in_their_ranges(kind, values)?;
    makes_sense(state, kind, values)?;
    Ok(accept(&state.empty_handed(), kind, values))
}

fn refuse_if(wrong: bool, code: u8) -> Result<(), Fault> {
    if wrong {
        Err((code, 0))
    } else {
        Ok(())
    }
}

/// Refusals 2, which looks at version and kind byte together, 3, and 4, which goes by kind and version.
fn kind_of(record: &[u8]) -> Result<u8, Fault> {
    let (version, kind) = (record[2], record[3]);
    refuse_if(!has_version(kind, version), 2)?;
    refuse_if(!kind::ALL.contains(&kind), 3)?;
    refuse_if(record.len() != 2 + usize::from(length_of(kind, version)), 4)?;
    Ok(kind)
}

/// Refusals 5 and 6.
fn in_its_place(state: &State, kind: u8) -> Result<(), Fault> {
    refuse_if(state.records >= MOST_RECORDS, 5)?;
    let first = state.records == 0;
    refuse_if(first != (kind == kind::FARM), 6)?;
    let heading_fits = match kind {
        kind::ENTERIC | kind::CATTLE | kind::GRAZING => (1..=3).contains(&state.heading.class),
        kind::PIG => state.heading.class == 4,
        _ => true,
    };
    refuse_if(!heading_fits, 6)
}

/// Refusal 7, with the position of the first field out of range.
fn in_their_ranges(kind: u8, values: &[u128]) -> Result<(), Fault> {
    for (position, (f, &value)) in (1..).zip(fields_with(kind, values.len()).iter().zip(values)) {
        if value < u128::from(f.low) || value > u128::from(f.high) {
            return Err((7, position));
        }
    }
    Ok(())
}

/// Refusals 8 to 12.
fn makes_sense(state: &State, kind: u8, v: &[u128]) -> Result<(), Fault> {
    match kind {
        kind::HEADING => refuse_if(v[0] <= u128::from(state.heading.group), 8),
        kind::ENTERIC => days_fit(state, kind, v),
        kind::CATTLE => {
            days_fit(state, kind, v)?;
            refuse_if(v[6] + v[7] + v[8] != 10_000, 10)?;
            refuse_if(figures::x_of(v) < 0, 11)
        }
        kind::PIG => {
            days_fit(state, kind, v)?;
            refuse_if(v[8] + v[10] > 1_000, 10)
        }
        kind::GRAZING => refuse_if(u128::from(state.heading.grazed) + v[3] > 10_000, 10),
        kind::CLOSE => refuse_if(v[0] != u128::from(state.records), 12),
        _ => Ok(()),
    }
}

/// Refusal 9.
fn days_fit(state: &State, kind: u8, v: &[u128]) -> Result<(), Fault> {
    let before = state.heading.days[kind::days_at(kind)];
    refuse_if(u128::from(before) + v[0] > 366, 9)
}

fn accept(state: &State, kind: u8, v: &[u128]) -> Accepted {
    let counted = State { records: state.records + 1, stage: OPEN, ..*state };
    let head = u128::from(state.heading.head);
    match kind {
        kind::FARM => farm(counted, Factors::of_farm(v)),
        kind::HEADING => new_group(counted, heading_of(v)),
        kind::ENTERIC => of_group(with_days(counted, kind, v), kind, figures::enteric(head, v)),
        kind::CATTLE => of_group(with_days(counted, kind, v), kind, figures::cattle(head, v)),
        kind::PIG => of_group(with_days(counted, kind, v), kind, figures::pig(head, v)),
        kind::ENERGY => of_farm(counted, kind, figures::energy(v)),
        kind::SOIL => of_farm(counted, kind, figures::soil(v)),
        kind::TILLAGE => of_farm(counted, kind, tillage::figures(v)),
        kind::GRAZING => grazed(counted, v[3] as u16, grazing::figures(head, v)),
        _ => close(counted),
    }
}

fn farm(state: State, factors: Factors) -> Accepted {
    Accepted { state: State { factors, ..state }, lines: Vec::new() }
}

/// A new heading begins with day sums and fractions of zero.
fn heading_of(v: &[u128]) -> Heading {
    Heading { group: v[0] as u16, class: v[1] as u8, head: v[2] as u16, days: [0; 3], grazed: 0 }
}

fn with_days(mut state: State, kind: u8, v: &[u128]) -> State {
    state.heading.days[kind::days_at(kind)] += v[0] as u16;
    state
}

/// The old group's subtotal is told, and the new one starts from zero.
fn new_group(state: State, heading: Heading) -> Accepted {
    let lines = subtotal_line(&state);
    Accepted { state: State { heading, subtotal: Subtotal::default(), ..state }, lines }
}

/// A detail record of the group under the heading, kinds 3 to 5.
fn of_group(state: State, kind: u8, made: Figures) -> Accepted {
    let lines = line_of(kind, state.heading.group, &made.in_order());
    let (subtotal, sums) = (state.subtotal.plus(made), state.sums.plus(made));
    Accepted { state: State { subtotal, sums, ..state }, lines }
}

/// A detail record of the farm, kinds 6, 7 and 9, which no subtotal counts.
fn of_farm(state: State, kind: u8, made: Figures) -> Accepted {
    let lines = line_of(kind, 0, &made.in_order());
    Accepted { state: State { sums: state.sums.plus(made), ..state }, lines }
}

/// A grazing record stands under the heading, whose group its line has, but no subtotal counts it.
fn grazed(mut state: State, fraction: u16, made: Figures) -> Accepted {
    state.heading.grazed += fraction;
    let lines = line_of(kind::GRAZING, state.heading.group, &made.in_order());
    Accepted { state: State { sums: state.sums.plus(made), ..state }, lines }
}

/// The last group's subtotal, which stays in the state, then the total.
fn close(state: State) -> Accepted {
    let mut numbers = state.sums.in_order().to_vec();
    numbers.push(figures::word(state.factors.co2e(state.sums)));
    let lines = [subtotal_line(&state), line_of(kind::CLOSE, 0, &numbers)].concat();
    Accepted { state: State { stage: CLOSED, ..state }, lines }
}

/// The line of the group under the heading; none where there is no heading.
fn subtotal_line(state: &State) -> Vec<u8> {
    if state.heading.stands() {
        line_of(kind::SUBTOTAL, state.heading.group, &state.subtotal.figures().in_order())
    } else {
        Vec::new()
    }
}

fn line_of(kind: u8, group: u16, numbers: &[u64]) -> Vec<u8> {
    let mut line = big_endian(4 + 8 * numbers.len() as u64, 2);
    line.extend([1, kind]);
    line.extend(group.to_be_bytes());
    for &n in numbers {
        line.extend(n.to_be_bytes());
    }
    line
}
