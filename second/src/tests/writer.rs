//! Document 02's W1: what is refused, in which order, and that what is written reads back.

use crate::makers::books::{after, closed_run, values_outside};
use crate::makers::dice::Dice;
use crate::makers::plain::{place_of, plain_rows, plain_values, sample, under};
use crate::makers::states::{beside_bounds, right_state};
use crate::makers::trial::{hex, Case};
use crate::makers::writes::{in_a_row, in_order, records_of, row, some_write, stored};
use crate::model::kind;
use crate::model::record::{fields_of, fields_with, record_of};
use crate::model::state::{Refusal, State, CLOSED, MOST_RECORDS, OPEN, REFUSED};
use crate::model::warming::SET_1;
use crate::model::writer::{write, Wrote};

/// The number and field of a refusal that goes with the records accepted.
fn refused_by(state: &State, kind: u64, values: &[u64], room: usize) -> (u8, u8) {
    let refusal = write(state, kind, values, room).expect_err("it is refused");
    assert_eq!(refusal.record, state.records);
    (refusal.code, refusal.field)
}

fn result_of(case: &Case) -> (State, Result<Wrote, Refusal>) {
    match case {
        Case::Write { state, kind, values, room } => (*state, write(state, *kind, values, *room)),
        other => panic!("{other:?}"),
    }
}

fn code_of(case: &Case) -> u8 {
    result_of(case).1.err().map_or(0, |refusal| refusal.code)
}

#[test]
fn every_kind_is_written_and_read_back() {
    for (kind, values) in plain_rows() {
        let (state, record) = (place_of(kind), record_of(kind, &values));
        let wrote = write(&state, kind.into(), &values, record.len()).unwrap();
        assert_eq!(wrote.bytes, record);
        assert_eq!(wrote.state, after(&state, &wrote.bytes));
        assert_eq!(wrote.state.records, state.records + 1);
        assert_eq!(write(&state, kind.into(), &values, 64), Ok(wrote));
    }
}

#[test]
fn the_papers_farm_record() {
    let wrote = write(&State::default(), 1, &[7, 2010, 1], 11).unwrap();
    assert_eq!(hex(&wrote.bytes), "000901010000000707da01");
    assert_eq!((wrote.state.stage, wrote.state.factors), (OPEN, SET_1));
}

#[test]
fn short_buffers_come_last() {
    for (kind, values) in plain_rows() {
        let state = place_of(kind);
        for room in 0..record_of(kind, &values).len() {
            assert_eq!(refused_by(&state, kind.into(), &values, room), (16, 0));
        }
    }
    assert_eq!(refused_by(&under(1), 8, &[3], 0), (12, 0));
}

#[test]
fn values_at_and_past_their_ranges() {
    for (kind, plain) in plain_rows() {
        let state = place_of(kind);
        for (position, f) in fields_with(kind, plain.len()).iter().enumerate() {
            let with = |value| {
                let mut values = plain.clone();
                values[position] = value;
                write(&state, kind.into(), &values, 64)
            };
            let seven = Err(Refusal { code: 7, record: state.records, field: position as u8 + 1 });
            for value in [f.low, f.high] {
                assert_ne!(with(value.into()), seven);
            }
            for value in values_outside(f) {
                assert_eq!(with(value), seven);
            }
            for high in [1, 256, 1 << (63 - 8 * f.bytes)] {
                assert_eq!(with((high << (8 * f.bytes)) + u64::from(f.low)), seven);
            }
            assert_eq!(with(u64::MAX), seven);
        }
    }
}

#[test]
fn the_first_field_out_of_range_is_given() {
    assert_eq!(refused_by(&State::default(), 1, &[1 << 32, 0, 0], 64), (7, 1));
    assert_eq!(refused_by(&State::default(), 1, &[1, 1 << 16 | 2010, 0], 64), (7, 2));
    assert_eq!(refused_by(&under(1), 3, &[1, 0, 1 << 16], 64), (7, 3));
}

#[test]
fn wrong_counts_and_wrong_kinds() {
    for kind in kind::ALL.map(u64::from) {
        let right = fields_of(kind as u8, 1).len();
        let right = |count| count == right || (kind, count) == (1, 4);
        for count in (0..=20).filter(|&count| !right(count)) {
            assert_eq!(refused_by(&place_of(kind as u8), kind, &vec![1; count], 64), (4, 0));
        }
    }
    for kind in [0, 11, 255, 256 + 3, (1 << 32) + 3, u64::MAX] {
        assert_eq!(refused_by(&under(1), kind, &plain_values(3), 64), (3, 0));
    }
}

#[test]
fn refusals_in_their_order() {
    let codes: Vec<u8> = in_order().iter().map(code_of).collect();
    assert_eq!(codes, [13, 6, 22, 22, 3, 4, 5, 6, 6, 7, 8, 9, 9, 10, 11, 12, 6, 7, 10]);
}

#[test]
fn states_of_every_sort() {
    let values = plain_values(6);
    let mut dice = Dice::of_case(11, 1);
    for _ in 0..300 {
        let closed = right_state(&mut dice, CLOSED);
        assert_eq!(refused_by(&closed, 6, &values, 64), (22, 0));
        let refused = right_state(&mut dice, REFUSED);
        assert_eq!(write(&refused, 6, &values, 64), Err(refused.refusal));
        let open = right_state(&mut dice, OPEN);
        let holding = after(&open, &sample()[..dice.between(1, 10) as usize]);
        assert_eq!(refused_by(&holding, 6, &values, 64), (22, 0));
        let full = State { records: MOST_RECORDS, ..open };
        assert_eq!(refused_by(&full, 6, &values, 64), (5, 0));
    }
    for stage in [0, 1, 2, 3] {
        for state in beside_bounds(&right_state(&mut dice, stage)) {
            let thirteen =
                write(&state, 6, &values, 64) == Err(Refusal { code: 13, record: 0, field: 0 });
            assert_eq!(thirteen, !state.in_range());
        }
    }
}

#[test]
fn what_is_written_reads_to_the_same_state() {
    let mut met = [0; 23];
    for index in 0..20_000 {
        let case = some_write(&mut Dice::of_case(12, index));
        let (state, result) = result_of(&case);
        if let Ok(wrote) = result {
            assert_eq!(after(&state, &wrote.bytes), wrote.state);
            assert!(wrote.state.in_range());
        }
        met[usize::from(code_of(&case))] += 1;
    }
    for (code, times) in met.into_iter().enumerate() {
        assert!(times > 30 || [14, 15].contains(&code) || (17..=21).contains(&code), "{code}");
    }
}

/// What the reader would refuse, the writer refuses by the same number, and nothing else.
#[test]
fn refused_as_the_reader_would() {
    for index in 0..20_000 {
        let Case::Write { state, kind, values, .. } = some_write(&mut Dice::of_case(13, index))
        else {
            unreachable!()
        };
        let code = write(&state, kind, &values, 64).err().map_or(0, |refusal| refusal.code);
        let fits = |(f, &value): (&crate::model::record::Field, &u64)| value < 1 << (8 * f.bytes);
        let sayable = (1..=10).contains(&kind)
            && values.len() == fields_with(kind as u8, values.len()).len()
            && fields_with(kind as u8, values.len()).iter().zip(&values).all(fits);
        if sayable && state.in_range() && state.stage <= OPEN && state.held_count == 0 {
            let read = after(&state, &record_of(kind as u8, &values));
            assert_eq!(code, read.refusal.code);
        }
    }
}

#[test]
fn accepted_books_written_again_are_the_same_bytes() {
    let mut dice = Dice::of_case(14, 1);
    for _ in 0..2_000 {
        let count = dice.between(1, 20);
        let book = closed_run(&mut dice, &State::default(), count);
        let mut again = Vec::new();
        let mut last = State::default();
        for (case, record) in row(&book).iter().zip(records_of(&book)) {
            let (given, result) = result_of(case);
            assert_eq!(given, last);
            let wrote = result.unwrap();
            assert_eq!(wrote.bytes, record);
            again.extend(wrote.bytes);
            last = wrote.state;
        }
        assert_eq!((again, last), (book.clone(), after(&State::default(), &book)));
    }
}

#[test]
fn fresh_rows_start_where_the_last_one_ended() {
    for first in (0..4_000).step_by(200) {
        let mut state = State::default();
        for case in (first..).map_while(|index| in_a_row(9, index)) {
            let (given, result) = result_of(&case);
            assert_eq!(given, state);
            state = result.unwrap().state;
        }
        assert_eq!(state.stage, CLOSED);
    }
}

#[test]
fn stored_ones_meet_every_number() {
    let codes: Vec<u8> = stored().iter().map(code_of).collect();
    for code in [0, 1, 3, 4, 5, 6, 7, 8, 9, 10, 11, 12, 13, 16, 22] {
        assert!(codes.contains(&code), "{code}");
    }
}
