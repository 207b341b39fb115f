//! Books cut into parts: the same lines and the same state.

use super::all;
use crate::makers::books::{closed_run, damaged_run};
use crate::makers::dice::Dice;
use crate::makers::parts::{every_part_size, of_each_size, ENOUGH, SHORT, SIZES};
use crate::makers::plain::{sample, several_groups};
use crate::makers::trial::Case;
use crate::makers::writes::records_of;
use crate::model::feed::{feed, Answer, Reply};
use crate::model::kind;
use crate::model::state::State;
use std::collections::BTreeSet;

#[test]
fn every_cut_of_the_sample_agrees() {
    let book = sample();
    let uncut = all(&State::default(), &book);
    for cut in 0..=book.len() {
        let first = all(&State::default(), &book[..cut]);
        assert_eq!(first.taken, cut);
        let second = all(&first.state, &book[cut..]);
        assert_eq!([first.lines, second.lines].concat(), uncut.lines);
        assert_eq!((second.state, second.answer), (uncut.state, uncut.answer));
    }
}

#[test]
fn every_cut_of_books_by_chance_agrees() {
    let mut dice = Dice::of_case(3, 3);
    for _ in 0..2_000 {
        let number = dice.between(1, 12) as u8;
        let book = damaged_run(&mut dice, &State::default(), number);
        let uncut = all(&State::default(), &book);
        let cut = dice.below(book.len() as u64 + 1) as usize;
        let first = all(&State::default(), &book[..cut]);
        let second = all(&first.state, &book[first.taken..]);
        assert_eq!(first.taken + second.taken, uncut.taken);
        assert_eq!([first.lines, second.lines].concat(), uncut.lines);
        assert_eq!((second.state, second.answer), (uncut.state, uncut.answer));
    }
}

/// The book from no record in parts of this size, with these rooms in turn, told as one call.
fn read_in_parts(book: &[u8], size: usize, rooms: &[usize]) -> Reply {
    let mut read = feed(&State::default(), &[], 0);
    for &room in rooms.iter().cycle() {
        let left = &book[read.taken..];
        let reply = feed(&read.state, &left[..size.min(left.len())], room);
        let (taken, lines) = (read.taken + reply.taken, [read.lines, reply.lines].concat());
        read = Reply { taken, lines, ..reply };
        if taken == book.len() || !matches!(read.answer, Answer::More | Answer::Full) {
            break;
        }
    }
    read
}

#[test]
fn the_answer_does_not_depend_on_the_parts() {
    let mut dice = Dice::of_case(11, 11);
    let mut books = vec![sample(), several_groups(), Vec::new()];
    for number in 1..=12 {
        let count = dice.between(1, 12);
        let closed = closed_run(&mut dice, &State::default(), count);
        books.push(closed[..closed.len() - usize::from(number)].to_vec());
        books.push(closed);
        books.push(damaged_run(&mut dice, &State::default(), number));
    }
    for book in books {
        let uncut = all(&State::default(), &book);
        for size in SIZES {
            assert_eq!(read_in_parts(&book, size, ENOUGH), uncut);
            assert_eq!(read_in_parts(&book, size, SHORT), uncut);
        }
    }
}

/// What a case in parts has met: its size, the last answer, and whether there was a Full.
fn met_in_parts(case: &Case) -> (usize, Answer, bool) {
    let Case::Book { state, input, calls } = case else { panic!("{case:?}") };
    let (mut state, mut left) = (*state, &input[..]);
    let mut answers = Vec::new();
    for call in calls {
        assert_eq!(call.offer, calls[0].offer);
        let reply = feed(&state, &left[..call.offer.min(left.len())], call.room);
        (state, left) = (reply.state, &left[reply.taken..]);
        answers.push(reply.answer);
    }
    (calls[0].offer, *answers.last().unwrap(), answers.contains(&Answer::Full))
}

/// Each size from 1 to 60 with each sort of book, closed ones with a Full and without; and each number of a refusal.
fn every_size_is_met(cases: &[Case]) {
    let met: Vec<_> = cases.iter().map(met_in_parts).collect();
    for size in 1..=60 {
        let of_size = || met.iter().filter(|met| met.0 == size);
        for full in [false, true] {
            assert!(of_size().any(|met| (met.1, met.2) == (Answer::Closed, full)), "{size} {full}");
        }
        assert!(of_size().any(|met| met.1 == Answer::More), "{size}");
        assert!(of_size().any(|met| matches!(met.1, Answer::Refused(_))), "{size}");
    }
    let code = |met: &(usize, Answer, bool)| match met.1 {
        Answer::Refused(refusal) => Some(refusal.code),
        _ => None,
    };
    assert_eq!(met.iter().filter_map(code).collect::<BTreeSet<u8>>(), (1..=12).collect());
}

#[test]
fn parts_of_every_size_are_stored() {
    let cases = every_part_size();
    every_size_is_met(&cases);
    let mut kinds = BTreeSet::new();
    for case in &cases {
        match case {
            Case::Book { input, .. } if met_in_parts(case).1 == Answer::Closed => {
                kinds.extend(records_of(input).iter().map(|record| record[3]));
            }
            _ => (),
        }
    }
    assert_eq!(kinds, kind::ALL.collect());
}

#[test]
fn parts_of_every_size_are_drawn() {
    let drawn = |run: u64| (400 * run..400 * (run + 1)).filter_map(|index| of_each_size(12, index));
    let sizes: Vec<usize> = drawn(0).map(|case| met_in_parts(&case).0).collect();
    assert_eq!(sizes, (1..=60).collect::<Vec<usize>>());
    every_size_is_met(&(0..100).flat_map(drawn).collect::<Vec<Case>>());
}
