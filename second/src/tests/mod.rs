//! The second program's own tests by subject: what the documents say, and what the makers of cases promise.

mod cases;
mod compare;
mod figures;
mod grazing;
mod halves;
mod lines;
mod page;
mod parts;
mod programs;
mod records;
mod refusals;
mod salvage;
mod sheets;
mod slips;
mod states;
mod subtotals;
mod table;
mod tillage;
mod typed;
mod typed_choices;
mod typed_closes;
mod typed_groups;
mod typed_lines;
mod typed_lost;
mod typed_numbers;
mod typed_unusual;
mod warming;
mod why;
mod writer;

use crate::model::feed::{feed, Answer, Reply};
use crate::model::figures::{Figures, Subtotal};
use crate::model::record::record_of;
use crate::model::state::{Heading, State, LARGE, OPEN};
use crate::model::warming::SET_1;

/// An open state under a heading of this class and head count.
fn under(class: u8, head: u16) -> State {
    let heading = Heading { group: 9, class, head, days: [0; 3], grazed: 0 };
    State { stage: OPEN, records: 2, factors: SET_1, heading, ..State::default() }
}

fn all(state: &State, input: &[u8]) -> Reply {
    feed(state, input, LARGE)
}

/// The figures that an accepted record adds to the sums.
fn adds(state: &State, kind: u8, values: &[u64]) -> Figures {
    let reply = all(state, &record_of(kind, values));
    assert_eq!(reply.answer, Answer::More);
    reply.state.sums
}

/// The code and field by which a record is refused.
fn refused_by(state: &State, record: &[u8]) -> (u8, u8) {
    match all(state, record).answer {
        Answer::Refused(r) => (r.code, r.field),
        other => panic!("{other:?}"),
    }
}

fn accepted(state: &State, record: &[u8]) -> bool {
    all(state, record).answer == Answer::More
}

const PIG: [u64; 12] = [100, 200, 1_000, 1_000, 200, 1_800, 1_000, 200, 250, 1_000, 0, 0];

const COW: [u64; 9] = [365, 2_000, 1_600, 3_000, 320, 0, 2_000, 8_000, 0];

/// An open state of four records without a heading.
fn no_group() -> State {
    State { stage: OPEN, records: 4, factors: SET_1, ..State::default() }
}

/// An open state of four records whose group 9 of this class has a subtotal.
fn with_group(class: u8) -> State {
    let subtotal = Subtotal { ch4: 1, n2o: 2, excreted: 0x0304, land: 5 };
    State { records: 4, subtotal, ..under(class, 10) }
}
