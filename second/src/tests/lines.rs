//! The sample's lines, lines and their rooms, the longest book.

use super::{all, no_group, under, with_group};
use crate::makers::books::right_close;
use crate::makers::desk::{long_book, many_groups};
use crate::makers::plain::sample;
use crate::model::feed::{feed, herd_desk, Answer};
use crate::model::kind;
use crate::model::lister::list;
use crate::model::record::record_of;
use crate::model::state::{Refusal, State};

const SAMPLE_TEXT: &str = "3 12 434501 0 0 0 0 0
6 0 0 0 875000 0 0 0
3 12 392453 0 0 0 0 0
16 12 826954 0 0 0 0 0
8 0 826954 0 875000 0 0 0 18241034
closed
";

#[test]
fn the_sample_book() {
    assert_eq!(list(&sample()), SAMPLE_TEXT);
    let mut trailing = sample();
    trailing.push(0);
    assert_eq!(list(&trailing), SAMPLE_TEXT);
    assert_eq!(list(&[]), "unfinished\n");
    assert_eq!(list(&[0, 3]), "refused 1 0 0\n");
    assert_eq!(list(&sample()[..11]), "unfinished\n");
}

#[test]
fn the_sample_for_the_herd_desk() {
    let book = sample();
    assert_eq!(herd_desk(&book, 278).0, 278);
    assert_eq!(herd_desk(&book, 277).0, (16 << 32) + 162);
    assert_eq!(herd_desk(&book, 53).0, 16 << 32);
    assert_eq!(herd_desk(&book[..60], 278).0, (17 << 32) + 162);
    assert_eq!(herd_desk(&[book, vec![0]].concat(), 278).0, (18 << 32) + 278);
    assert_eq!(herd_desk(&[], 0).0, 17 << 32);
    assert_eq!(herd_desk(&[0, 27], 0).0, 1 << 32);
}

#[test]
fn full_keeps_the_last_byte() {
    let state = under(1, 1);
    let record = record_of(kind::ENTERIC, &[1, 2, 3]);
    let reply = feed(&state, &record, 53);
    assert_eq!((reply.answer, reply.taken, reply.lines.len()), (Answer::Full, 11, 0));
    assert_eq!(feed(&reply.state, &[], 0).answer, Answer::More);
    assert_eq!(feed(&reply.state, &record[11..], 53).answer, Answer::Full);
    let done = feed(&reply.state, &record[11..], 54);
    assert_eq!((done.answer, done.taken, done.lines.len()), (Answer::More, 1, 54));
}

/// With less room all but the last byte is taken and nothing written; with just enough, or more, all of it.
fn fits_from(state: &State, record: &[u8], room: usize) {
    let last = record.len() - 1;
    for short in [0, 1, 53, 54, 61, 62, 115].into_iter().filter(|&short| short < room) {
        let reply = feed(state, record, short);
        let (answer, written) = (reply.answer, reply.lines.len());
        assert_eq!((answer, reply.taken, written), (Answer::Full, last, 0));
        assert_eq!(reply.state.empty_handed(), *state);
        assert_eq!(feed(&reply.state, &record[last..], room).lines.len(), room);
    }
    for enough in [room, room + 1, 1_000] {
        let reply = feed(state, record, enough);
        assert_eq!((reply.taken, reply.lines.len()), (record.len(), room));
        assert_ne!(reply.answer, Answer::Full);
    }
}

#[test]
fn the_lines_of_one_record_fit_together_or_not_at_all() {
    fits_from(&State::default(), &record_of(kind::FARM, &[7, 2010, 1]), 0);
    fits_from(&no_group(), &record_of(kind::HEADING, &[9, 1, 0]), 0);
    fits_from(&no_group(), &right_close(&no_group()), 62);
    for class in 1..=4 {
        let state = with_group(class);
        fits_from(&state, &record_of(kind::HEADING, &[10, 1, 0]), 54);
        fits_from(&state, &record_of(kind::SOIL, &[100]), 54);
        fits_from(&state, &right_close(&state), 116);
    }
}

#[test]
fn the_longest_book_and_one_more() {
    let longest = all(&State::default(), &long_book(4_094));
    assert_eq!((longest.answer, longest.state.records), (Answer::Closed, 4_096));
    assert_eq!(longest.lines.len(), 4_094 * 54 + 62);
    let longer = all(&State::default(), &long_book(4_095));
    assert_eq!(longer.answer, Answer::Refused(Refusal { code: 5, record: 4_096, field: 0 }));
    assert_eq!(longer.lines.len(), 4_095 * 54);
    // Each heading's line comes later than it does, so that headings alone need the same room.
    let groups = all(&State::default(), &many_groups(4_094));
    assert_eq!((groups.answer, groups.lines.len()), (Answer::Closed, 4_094 * 54 + 62));
}
