//! Document 02's W2: a subtotal for each group.

use super::{all, no_group, refused_by, with_group, COW, PIG};
use crate::makers::books::{after, closed_run, right_close};
use crate::makers::desk::many_groups;
use crate::makers::dice::Dice;
use crate::makers::plain::several_groups;
use crate::model::feed::Answer;
use crate::model::figures::Subtotal;
use crate::model::kind;
use crate::model::lister::list;
use crate::model::record::{number, record_of};
use crate::model::state::{Heading, State, CLOSED};

/// The line of `with_group`.
const GROUP_LINE: [u8; 54] = [
    0, 52, 1, 16, 0, 9, 0, 0, 0, 0, 0, 0, 0, 1, 0, 0, 0, 0, 0, 0, 0, 2, 0, 0, 0, 0, 0, 0, 0, 0, 0,
    0, 0, 0, 0, 0, 3, 4, 0, 0, 0, 0, 0, 0, 0, 5, 0, 0, 0, 0, 0, 0, 0, 0,
];

#[test]
fn a_new_heading_gives_the_old_groups_subtotal() {
    let reply = all(&with_group(1), &record_of(kind::HEADING, &[10, 4, 3]));
    assert_eq!((reply.answer, reply.lines), (Answer::More, GROUP_LINE.to_vec()));
    assert_eq!(reply.state.subtotal, Subtotal::default());
    assert_eq!(
        reply.state.heading,
        Heading { group: 10, class: 4, head: 3, days: [0; 3], grazed: 0 }
    );
    assert_eq!(reply.state.sums, with_group(1).sums);
    assert!(all(&no_group(), &record_of(kind::HEADING, &[10, 4, 3])).lines.is_empty());
}

#[test]
fn the_close_gives_the_last_groups_subtotal_before_the_total() {
    let state = with_group(4);
    let reply = all(&state, &right_close(&state));
    assert_eq!((reply.answer, reply.lines.len()), (Answer::Closed, 116));
    assert_eq!(reply.lines[..54], GROUP_LINE);
    assert_eq!(reply.lines[54..60], [0, 60, 1, 8, 0, 0]);
    assert_eq!(reply.state, State { stage: CLOSED, records: 5, ..state });
    let without = all(&no_group(), &right_close(&no_group()));
    assert_eq!(without.lines.len(), 62);
    assert_eq!(without.lines[..6], [0, 60, 1, 8, 0, 0]);
}

#[test]
fn a_heading_without_rations_gives_zeros() {
    let text = list(&many_groups(3));
    let wanted =
        "16 1 0 0 0 0 0 0\n16 2 0 0 0 0 0 0\n16 3 0 0 0 0 0 0\n8 0 0 0 0 0 0 0 0\nclosed\n";
    assert_eq!(text, wanted);
}

#[test]
fn kinds_3_to_5_alone_are_in_the_subtotal() {
    let cattle = with_group(1);
    let before = cattle.subtotal;
    let (ch4, n2o, excreted, land) = (before.ch4, before.n2o, before.excreted, before.land);
    let then =
        |state: &State, kind, values: &[u64]| after(state, &record_of(kind, values)).subtotal;
    let enteric = then(&cattle, kind::ENTERIC, &[365, 30_000, 65]);
    assert_eq!(enteric, Subtotal { ch4: ch4 + 127_898, ..before });
    let nitrogen = then(&cattle, kind::CATTLE, &COW);
    assert_eq!(nitrogen, Subtotal { n2o: n2o + 28_762, excreted: excreted + 1_318_672, ..before });
    let mut pigs = with_group(4);
    pigs.heading.head = 100;
    let wanted = Subtotal {
        ch4: ch4 + 128_640,
        n2o: n2o + 1_267 + 1_584,
        excreted: excreted + 403_200,
        land: land + 302_400,
    };
    assert_eq!(then(&pigs, kind::PIG, &PIG), wanted);
    for state in [cattle, pigs] {
        assert_eq!(then(&state, kind::ENERGY, &[1, 125, 70_000]), before);
        assert_eq!(then(&state, kind::SOIL, &[100]), before);
        assert_eq!(then(&state, kind::TILLAGE, &[1, 1, 1, 1, 100]), before);
    }
    assert_eq!(then(&cattle, kind::GRAZING, &[3, 1, 600, 5_000]), before);
}

#[test]
fn a_refusal_keeps_the_subtotal_and_gives_no_line() {
    let state = with_group(1);
    let old_group = record_of(kind::HEADING, &[9, 1, 0]);
    let wrong = [
        old_group,
        record_of(kind::HEADING, &[10, 5, 0]),
        record_of(kind::CLOSE, &[3]),
        record_of(kind::PIG, &PIG),
    ];
    for (record, code) in wrong.iter().zip([8, 7, 12, 6]) {
        let reply = all(&state, record);
        assert_eq!(refused_by(&state, record).0, code);
        assert_eq!((reply.lines.len(), reply.state.subtotal), (0, state.subtotal));
    }
}

#[test]
fn several_groups_in_one_book() {
    let text = "6 0 0 0 875000 0 0 0
3 12 434501 0 0 0 0 0
6 0 0 0 875000 0 0 0
4 12 0 9456 0 433536 0 0
7 0 0 0 18333333 0 0 0
3 12 434501 0 0 0 0 0
16 12 869002 9456 0 433536 0 0
16 13 0 0 0 0 0 0
7 0 0 0 18333333 0 0 0
5 500 51456 1141 0 161280 120960 0
6 0 0 0 875000 0 0 0
5 500 51456 1141 0 161280 120960 0
16 500 102912 2282 0 322560 241920 0
4 65535 0 9456 0 433536 0 0
6 0 0 0 875000 0 0 0
16 65535 0 9456 0 433536 0 0
8 0 971914 21194 40166666 1189632 241920 0 67147000
closed
";

    assert_eq!(list(&several_groups()), text);
}

/// The lines of a kind, their figures added up.
fn added_up(lines: &[u8], kind: u8) -> [u128; 6] {
    let (mut sums, mut at) = ([0; 6], 0);
    while at < lines.len() {
        let end = at + 2 + number(&lines[at..at + 2]) as usize;
        if lines[at + 3] == kind {
            let figures = lines[at + 6..at + 54].chunks(8).map(number);
            sums.iter_mut().zip(figures).for_each(|(sum, figure)| *sum += figure);
        }
        at = end;
    }
    sums
}

#[test]
fn the_farm_is_its_subtotals_added_up() {
    let mut dice = Dice::of_case(10, 10);
    for _ in 0..500 {
        let count = dice.between(1, 30);
        let lines = all(&State::default(), &closed_run(&mut dice, &State::default(), count)).lines;
        let (groups, farm) = (added_up(&lines, kind::SUBTOTAL), added_up(&lines, kind::CLOSE));
        assert_eq!(groups, [farm[0], farm[1], 0, farm[3], farm[4], 0]);
    }
}

#[test]
fn no_heading_no_subtotal() {
    let one = Subtotal { ch4: 1, n2o: 1, excreted: 1, land: 1 };
    let zero = Subtotal::default();
    for subtotal in [
        Subtotal { ch4: 1, ..zero },
        Subtotal { n2o: 1, ..zero },
        Subtotal { excreted: 1, ..zero },
        Subtotal { land: 1, ..zero },
        one,
    ] {
        let state = State { subtotal, ..no_group() };
        assert_eq!(refused_by(&state, &[0]), (13, 0));
        assert_eq!(all(&state, &[0]).state, state);
        assert!(!State { subtotal, ..State::default() }.in_range());
        assert!(State { subtotal, ..with_group(1) }.in_range());
    }
}
