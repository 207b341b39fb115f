//! The refusal numbers, P10 to P12 among them, and their order.

use super::{accepted, all, refused_by, under, COW, PIG};
use crate::makers::books::{after, wrong_record};
use crate::makers::dice::Dice;
use crate::makers::states::right_state;
use crate::model::feed::{feed, Answer};
use crate::model::kind;
use crate::model::record::record_of;
use crate::model::state::{Heading, Refusal, State, MOST_RECORDS};

#[test]
fn p10_days() {
    assert!(accepted(&under(1, 1), &record_of(kind::ENTERIC, &[366, 1, 1])));
    assert_eq!(refused_by(&under(1, 1), &record_of(kind::ENTERIC, &[0, 1, 1])), (7, 1));
    assert_eq!(refused_by(&under(1, 1), &record_of(kind::ENTERIC, &[367, 1, 1])), (7, 1));
}

#[test]
fn p11_shares() {
    let mut v = COW;
    assert!(accepted(&under(1, 1), &record_of(kind::CATTLE, &v)));
    v[6] = 1_999;
    assert_eq!(refused_by(&under(1, 1), &record_of(kind::CATTLE, &v)), (10, 0));
    v[6] = 2_001;
    assert_eq!(refused_by(&under(1, 1), &record_of(kind::CATTLE, &v)), (10, 0));
}

#[test]
fn p12_lengths() {
    for length in [0, 1, 2, 3, 27, 28, 255] {
        let reply = all(&State::default(), &[0, length, 1, 1]);
        assert_eq!(reply.answer, Answer::Refused(Refusal { code: 1, record: 0, field: 0 }));
        assert_eq!(reply.taken, 2);
    }
    assert_eq!(refused_by(&State::default(), &[1, 4]), (1, 0));
    for length in [4, 26] {
        assert!(accepted(&State::default(), &[0, length]));
    }
}

#[test]
fn x_at_zero_passes_and_below_is_refused() {
    for (feed, milk, fits) in [(157, 160, true), (105, 107, true), (52, 53, false)] {
        let record = record_of(kind::CATTLE, &[1, feed, 1, milk, 1, 0, 0, 0, 10_000]);
        assert_eq!(accepted(&under(3, 1), &record), fits);
    }
    assert_eq!(
        refused_by(&under(3, 1), &record_of(kind::CATTLE, &[1, 52, 1, 53, 1, 0, 0, 0, 10_000])),
        (11, 0)
    );
    assert_eq!(
        refused_by(&under(3, 1), &record_of(kind::CATTLE, &[1, 0, 9, 0, 9, 1, 0, 0, 10_000])),
        (11, 0)
    );
}

#[test]
fn a_wrong_record_comes_before_full() {
    let reply = feed(&under(1, 1), &record_of(kind::ENTERIC, &[0, 2, 3]), 0);
    assert_eq!(reply.answer, Answer::Refused(Refusal { code: 7, record: 2, field: 1 }));
    assert_eq!((reply.taken, reply.state.held_count), (12, 0));
    assert_eq!(reply.state.heading, under(1, 1).heading);
}

#[test]
fn refusals_in_their_order() {
    let open = under(1, 1);
    let bytes = |head: &[u8], n: usize| [head.to_vec(), vec![255; n]].concat();
    assert_eq!(refused_by(&open, &bytes(&[0, 5, 2, 11], 3)), (2, 0));
    assert_eq!(refused_by(&open, &bytes(&[0, 5, 1, 11], 3)), (3, 0));
    assert_eq!(refused_by(&open, &bytes(&[0, 5, 1, 1], 3)), (4, 0));
    let full = State { records: MOST_RECORDS, ..open };
    assert_eq!(refused_by(&full, &bytes(&[0, 9, 1, 1], 7)), (5, 0));
    assert_eq!(refused_by(&open, &bytes(&[0, 9, 1, 1], 7)), (6, 0));
    assert_eq!(refused_by(&open, &record_of(kind::PIG, &[0; 12])), (6, 0));
    assert_eq!(refused_by(&under(4, 1), &record_of(kind::ENTERIC, &[0; 3])), (6, 0));
    assert_eq!(refused_by(&open, &record_of(kind::HEADING, &[9, 5, 0])), (7, 2));
    assert_eq!(refused_by(&open, &record_of(kind::HEADING, &[9, 4, 0])), (8, 0));
    let mut late = open;
    late.heading.days = [0, 366, 0];
    assert_eq!(refused_by(&late, &record_of(kind::CATTLE, &[1, 0, 0, 0, 0, 1, 0, 0, 0])), (9, 0));
    assert_eq!(refused_by(&open, &record_of(kind::CATTLE, &[1, 0, 0, 0, 0, 1, 0, 0, 0])), (10, 0));
    assert_eq!(refused_by(&open, &record_of(kind::CLOSE, &[3])), (12, 0));
}

#[test]
fn days_are_summed_each_kind_for_itself() {
    let mut state = under(1, 1);
    state = after(&state, &record_of(kind::ENTERIC, &[366, 1, 1]));
    assert_eq!(refused_by(&state, &record_of(kind::ENTERIC, &[1, 1, 1])), (9, 0));
    state = after(&state, &record_of(kind::CATTLE, &[366, 0, 0, 0, 0, 0, 0, 0, 10_000]));
    assert_eq!(state.heading.days, [366, 366, 0]);
    state = after(&state, &record_of(kind::ENERGY, &[1, 1, 1]));
    assert_eq!(state.heading.days, [366, 366, 0]);
    state = after(&state, &record_of(kind::HEADING, &[10, 2, 3]));
    assert_eq!(state.heading, Heading { group: 10, class: 2, head: 3, days: [0; 3], grazed: 0 });
}

#[test]
fn pig_parts() {
    let mut v = PIG;
    (v[8], v[10]) = (600, 400);
    assert!(accepted(&under(4, 1), &record_of(kind::PIG, &v)));
    v[10] = 401;
    assert_eq!(refused_by(&under(4, 1), &record_of(kind::PIG, &v)), (10, 0));
}

#[test]
fn wrong_records_get_their_number() {
    let mut dice = Dice::of_case(8, 8);
    let mut met = [0; 13];
    for _ in 0..20_000 {
        let stage = dice.of(&[0, 1]);
        let mut state = right_state(&mut dice, stage);
        if stage == 1 && dice.one_in(4) {
            state.records = MOST_RECORDS;
        }
        let number = dice.between(1, 12) as u8;
        if let Some(record) = wrong_record(&mut dice, &state, number) {
            assert_eq!(refused_by(&state, &record).0, number, "{state:?} {record:?}");
            met[usize::from(number)] += 1;
        }
    }
    assert!(met[1..].iter().all(|&times| times > 100), "{met:?}");
}
