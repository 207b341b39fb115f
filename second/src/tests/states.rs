//! States: their ranges, refusal 13, what ends for ever, the sure step.

use super::{all, under, with_group};
use crate::makers::books::{after, closed_run, damaged_run, right_close};
use crate::makers::dice::Dice;
use crate::makers::plain::sample;
use crate::makers::states::{beside_bounds, right_state};
use crate::model::feed::{feed, Answer, Reply};
use crate::model::state::{Heading, Refusal, State, CLOSED, OPEN, REFUSED};
use crate::model::warming::{NONE, SET_2};

#[test]
fn closed_and_refused_take_nothing() {
    let mut dice = Dice::of_case(9, 9);
    for stage in [CLOSED, REFUSED] {
        for _ in 0..200 {
            let state = right_state(&mut dice, stage);
            let reply = all(&state, &sample());
            assert_eq!((reply.taken, reply.lines.len(), reply.state), (0, 0, state));
            let wanted =
                if stage == CLOSED { Answer::Closed } else { Answer::Refused(state.refusal) };
            assert_eq!(reply.answer, wanted);
        }
    }
}

#[test]
fn thirteen_comes_first_and_changes_nothing() {
    let mut dice = Dice::of_case(4, 4);
    let mut outside = 0;
    for stage in [0, 1, 2, 3] {
        for state in beside_bounds(&right_state(&mut dice, stage)) {
            if state.in_range() {
                continue;
            }
            outside += 1;
            let reply = all(&state, &sample());
            let refusal = Refusal { code: 13, record: 0, field: 0 };
            assert_eq!(
                reply,
                Reply { state, taken: 0, lines: vec![], answer: Answer::Refused(refusal) }
            );
        }
    }
    assert!(outside > 150);
}

#[test]
fn ranges_of_a_state() {
    let open = under(1, 1);
    let fits = |change: &dyn Fn(&mut State)| {
        let mut state = open;
        change(&mut state);
        state.in_range()
    };
    assert!(State::default().in_range() && open.in_range());
    assert!(!fits(&|s| s.stage = 0) && !fits(&|s| s.stage = 3) && !fits(&|s| s.stage = 4));
    assert!(
        fits(&|s| s.stage = 2) && fits(&|s| s.records = 4_096) && !fits(&|s| s.records = 4_097)
    );
    assert!(!fits(&|s| s.records = 1) && !fits(&|s| s.records = 0));
    assert!(fits(&|s| (s.records, s.heading) = (1, Heading::default())));
    assert!(!fits(&|s| s.factors = NONE) && fits(&|s| s.factors = SET_2));
    assert!(fits(&|s| s.factors.ch4 = 1) && fits(&|s| s.factors.ch4 = 1_000));
    assert!(!fits(&|s| s.factors.ch4 = 0) && !fits(&|s| s.factors.ch4 = 1_001));
    assert!(fits(&|s| s.factors.n2o = 1) && fits(&|s| s.factors.n2o = 1_000));
    assert!(!fits(&|s| s.factors.n2o = 0) && !fits(&|s| s.factors.n2o = 1_001));
    assert!(!fits(&|s| s.heading.group = 0) && fits(&|s| s.heading = Heading::default()));
    assert!(!fits(&|s| s.heading.class = 0) && !fits(&|s| s.heading.class = 5));
    assert!(fits(&|s| s.heading.head = 20_000) && !fits(&|s| s.heading.head = 20_001));
    assert!(fits(&|s| s.heading.days[2] = 366) && !fits(&|s| s.heading.days[2] = 367));
    assert!(fits(&|s| s.sums.ch4 = 200_000_000_000) && !fits(&|s| s.sums.ch4 = 200_000_000_001));
    assert!(fits(&|s| s.sums.n2o = 20_000_000_000) && !fits(&|s| s.sums.n2o = 20_000_000_001));
    assert!(
        fits(&|s| s.sums.co2 = 20_000_000_000_000) && !fits(&|s| s.sums.co2 = 20_000_000_000_001)
    );
    assert!(!fits(&|s| s.sums.excreted = 200_000_000_001) && !fits(&|s| s.sums.land = u64::MAX));
    assert!(fits(&|s| s.subtotal.ch4 = 200_000_000_000));
    assert!(!fits(&|s| s.subtotal.ch4 = 200_000_000_001));
    assert!(fits(&|s| s.subtotal.n2o = 20_000_000_000));
    assert!(!fits(&|s| s.subtotal.n2o = 20_000_000_001));
    assert!(fits(&|s| s.subtotal.excreted = 200_000_000_000));
    assert!(!fits(&|s| s.subtotal.excreted = 200_000_000_001));
    assert!(fits(&|s| s.subtotal.land = 200_000_000_000));
    assert!(!fits(&|s| s.subtotal.land = 200_000_000_001));
    assert!(fits(&|s| s.sums.grazing = 200_000_000_000));
    assert!(!fits(&|s| s.sums.grazing = 200_000_000_001));
    assert!(fits(&|s| s.heading.grazed = 10_000) && !fits(&|s| s.heading.grazed = 10_001));
    assert!(!fits(&|s| s.refusal.code = 1) && !fits(&|s| s.refusal.field = 1));
}

#[test]
fn ranges_of_held_bytes() {
    let holding = |count: u64, bytes: &[u8]| {
        let mut state = State { held_count: count, ..State::default() };
        state.held[..bytes.len()].copy_from_slice(bytes);
        state.in_range()
    };
    assert!(holding(1, &[255]) && !holding(1, &[255, 1]) && !holding(0, &[1]));
    assert!(holding(2, &[0, 4]) && !holding(2, &[0, 3]) && !holding(2, &[1, 4]));
    assert!(holding(2, &[0, 26]) && !holding(2, &[0, 27]));
    assert!(holding(5, &[0, 4, 9, 9, 9]) && !holding(6, &[0, 4, 9, 9, 9, 9]));
    assert!(holding(27, &[0, 26, 7]) && !holding(27, &[0, 25, 7]) && !holding(28, &[0, 26, 7]));
}

#[test]
fn a_sure_step() {
    let mut dice = Dice::of_case(6, 6);
    for _ in 0..2_000 {
        let state = right_state(&mut dice, OPEN);
        let number = dice.between(1, 12) as u8;
        let input = damaged_run(&mut dice, &state, number);
        let cut = dice.below(input.len() as u64 + 1) as usize;
        let reached = after(&state, &input[..cut]);
        if reached.stage == OPEN && cut < input.len() {
            assert!(feed(&reached, &input[cut..], 116).taken > 0);
        }
    }
    let last_byte_missing = after(&with_group(1), &right_close(&with_group(1))[..5]);
    assert_eq!(feed(&last_byte_missing, &[4], 115).taken, 0);
    assert_eq!(feed(&last_byte_missing, &[4], 116).taken, 1);
}

#[test]
fn states_stay_in_range() {
    let mut dice = Dice::of_case(7, 7);
    for _ in 0..2_000 {
        let state = right_state(&mut dice, OPEN);
        assert!(state.in_range());
        let input = closed_run(&mut dice, &state, 5);
        assert!(feed(&state, &input, dice.below(300) as usize).state.in_range());
    }
}
