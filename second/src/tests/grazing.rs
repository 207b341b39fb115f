//! Document 02's W10: the printed factors, the sixth figure in lines, sums and CO2e, fractions under a heading, and grazing in its places.

use super::typed::{record_typed, remarks, said};
use super::{accepted, adds, all, no_group, refused_by, under, with_group};
use crate::makers::books::{after, right_close, wrong_record};
use crate::makers::dice::Dice;
use crate::makers::doubts::doubtful;
use crate::makers::plain::{plain_values, sample};
use crate::makers::states::right_state;
use crate::model::feed::{feed, Answer};
use crate::model::figures::Figures;
use crate::model::grazing::factor;
use crate::model::kind;
use crate::model::lister::list;
use crate::model::programs::retyped;
use crate::model::record::record_of;
use crate::model::salvage::tell;
use crate::model::state::{Heading, State, CLOSED};
use crate::model::why::why;

/// Table 2.4.6 of source document 000, copied.
const PRINT: &str = "Atl Prov.\t1.90\t1.34\t1.16
PQ\t1.90\t1.34\t1.16
ON\t1.90\t1.34\t1.16
MB\t1.87\t1.32\t1.15
SK\t1.83\t1.29\t1.12
AB\t1.80\t1.27\t1.10
BC\t1.81\t1.28\t1.11";

#[test]
fn the_table_is_the_printed_one() {
    assert_eq!(PRINT.lines().count(), 7);
    for (region, line) in (1..).zip(PRINT.lines()) {
        let printed: Vec<&str> = line.split('\t').skip(1).collect();
        assert_eq!(printed.len(), 3);
        for (column, factor_printed) in (1..).zip(printed) {
            let hundredths: u128 = factor_printed.replace('.', "").parse().unwrap();
            assert_eq!(factor(region, column), hundredths, "{line}");
        }
    }
}

fn grazed(head: u16, values: [u64; 4]) -> u64 {
    let made = adds(&under(1, head), kind::GRAZING, &values);
    assert_eq!(made, Figures { grazing: made.grazing, ..Figures::default() });
    made.grazing
}

#[test]
fn worked_values() {
    for (head, values, grams) in [
        (1, [3, 1, 600, 5_000], 570_000),
        (40, [3, 1, 600, 5_000], 22_800_000),
        (1, [4, 2, 1, 1], 0),
        (1, [4, 2, 380, 1], 50),
        (7, [5, 3, 137, 4_321], 464_110),
        (20_000, [1, 1, 2_000, 10_000], 76_000_000_000),
        (0, [1, 1, 2_000, 10_000], 0),
        (20_000, [7, 3, 0, 10_000], 0),
        (20_000, [7, 3, 2_000, 0], 0),
    ] {
        assert_eq!(grazed(head, values), grams, "{head} {values:?}");
    }
}

#[test]
fn halves_go_to_the_even_gram() {
    // 1.90 of 50 kg and a hundredth of a per cent is 9.5 g.
    for (weight, grams) in [(50, 10), (150, 28), (250, 48), (350, 66), (450, 86)] {
        assert_eq!(grazed(1, [1, 1, weight, 1]), grams);
    }
    // 1.15 of 100 kg, three head: 34.5 g for each hundredth of a per cent.
    for (fraction, grams) in [(1, 34), (2, 69), (3, 104), (4, 138), (5, 172)] {
        assert_eq!(grazed(3, [4, 3, 100, fraction]), grams);
    }
}

#[test]
fn its_line_has_the_groups_number_and_the_sixth_figure() {
    let reply = all(&with_group(2), &record_of(kind::GRAZING, &[3, 1, 600, 5_000]));
    let mut wanted = vec![0, 52, 1, 10, 0, 9];
    wanted.extend([0; 40]);
    wanted.extend(5_700_000_u64.to_be_bytes());
    assert_eq!((reply.lines.len(), reply.lines), (54, wanted));
    let line = record_of(kind::GRAZING, &[3, 1, 600, 5_000]);
    let full = feed(&with_group(2), &line, 53);
    assert_eq!((full.answer, full.taken, full.lines.len()), (Answer::Full, 9, 0));
}

#[test]
fn a_book_with_grazing() {
    let book = [
        &sample()[..sample().len() - 6],
        &record_of(kind::GRAZING, &[3, 1, 600, 5_000]),
        &record_of(kind::GRAZING, &[3, 3, 100, 5_000]),
        &record_of(kind::HEADING, &[13, 3, 1]),
        &record_of(kind::GRAZING, &[6, 2, 50, 10_000]),
        &record_of(kind::CLOSE, &[9]),
    ]
    .concat();
    // 40 cows of 600 kg and calves of 100 kg, half a year's feed each; one heifer of 50 kg: 127 × 50 × 10.
    let text = "3 12 434501 0 0 0 0 0
6 0 0 0 875000 0 0 0
3 12 392453 0 0 0 0 0
10 12 0 0 0 0 0 22800000
10 12 0 0 0 0 0 2320000
16 12 826954 0 0 0 0 0
10 13 0 0 0 0 0 63500
16 13 0 0 0 0 0 0
8 0 826954 0 875000 0 0 25183500 43424534
closed
";
    assert_eq!(list(&book), text);
}

#[test]
fn the_total_has_grazing_before_co2e() {
    let sums = Figures { grazing: 0x0102_0304, ..Figures::default() };
    let state = State { sums, ..with_group(1) };
    let lines = all(&state, &right_close(&state)).lines;
    assert_eq!((lines.len(), &lines[54..60]), (116, &[0, 60, 1, 8, 0, 0][..]));
    assert_eq!(lines[100..108], 0x0102_0304_u64.to_be_bytes());
    assert_eq!(lines[108..], 0x0102_0304_u64.to_be_bytes());
    assert_eq!(lines[46..54], [0; 8]);
}

#[test]
fn grazing_stands_under_cattle() {
    let record = record_of(kind::GRAZING, &plain_values(kind::GRAZING));
    assert_eq!(refused_by(&State::default(), &record), (6, 0));
    assert_eq!(refused_by(&no_group(), &record), (6, 0));
    assert_eq!(refused_by(&with_group(4), &record), (6, 0));
    for class in 1..=3 {
        let state = with_group(class);
        let then = after(&state, &record);
        let heading = Heading { grazed: 5_000, ..state.heading };
        assert_eq!((then.heading, then.subtotal), (heading, state.subtotal));
        assert_eq!(then.records, state.records + 1);
        for column in 1..=3 {
            assert!(accepted(&state, &record_of(kind::GRAZING, &[1, column, 1, 1])));
        }
    }
}

#[test]
fn each_field_is_held_to_its_range() {
    let ends = [(1, 7), (1, 3), (0, 2_000), (0, 10_000)];
    for (position, (low, high)) in ends.into_iter().enumerate() {
        let with = |value| {
            let mut values = plain_values(kind::GRAZING);
            values[position] = value;
            record_of(kind::GRAZING, &values)
        };
        assert!(accepted(&under(1, 1), &with(low)) && accepted(&under(1, 1), &with(high)));
        let seven = (7, position as u8 + 1);
        assert_eq!(refused_by(&under(1, 1), &with(high + 1)), seven);
        if low > 0 {
            assert_eq!(refused_by(&under(1, 1), &with(0)), seven);
        }
    }
    let short = [vec![0, 7, 1, 10], vec![1; 5]].concat();
    assert_eq!(refused_by(&under(1, 1), &short), (4, 0));
}

#[test]
fn fractions_under_a_heading_come_to_the_whole_at_most() {
    let grazing = |fraction| record_of(kind::GRAZING, &[1, 1, 1, fraction]);
    let state = after(&under(1, 1), &grazing(9_999));
    assert_eq!(state.heading.grazed, 9_999);
    assert_eq!(refused_by(&state, &grazing(2)), (10, 0));
    assert_eq!(refused_by(&state, &grazing(10_001)), (7, 4));
    let whole = after(&state, &grazing(1));
    assert_eq!(whole.heading.grazed, 10_000);
    assert!(accepted(&whole, &grazing(0)));
    assert_eq!(refused_by(&whole, &grazing(1)), (10, 0));
    // The farm's records leave the sum, a new heading sets it to zero, and the close keeps it.
    assert_eq!(after(&whole, &record_of(kind::SOIL, &[1])).heading.grazed, 10_000);
    let next = after(&whole, &record_of(kind::HEADING, &[10, 1, 1]));
    assert_eq!(next.heading.grazed, 0);
    assert!(accepted(&next, &grazing(10_000)));
    let closed = after(&whole, &right_close(&whole));
    assert_eq!((closed.stage, closed.heading.grazed), (CLOSED, 10_000));
}

#[test]
fn without_a_heading_no_fractions() {
    let state = State { heading: Heading { grazed: 1, ..Heading::default() }, ..no_group() };
    assert_eq!(refused_by(&state, &[0]), (13, 0));
    let zero = State::default();
    assert!(!State { heading: state.heading, ..zero }.in_range());
    assert!(!State { sums: Figures { grazing: 1, ..zero.sums }, ..zero }.in_range());
}

#[test]
fn the_bound_of_the_sixth_sum() {
    for (records, most) in [(1, 100_000_000_000), (4_096, 409_600_000_000_000)] {
        let with = |grazing| {
            let sums = Figures { grazing, ..Figures::default() };
            State { records, sums, ..no_group() }
        };
        assert!(with(most).in_range());
        assert_eq!(refused_by(&with(most + 1), &[0]), (13, 0));
        assert_eq!(refused_by(&with(u64::MAX), &[0]), (13, 0));
    }
}

#[test]
fn grazing_as_it_is_typed() {
    let record = Some(record_of(kind::GRAZING, &[3, 1, 600, 5_000]));
    for line in ["grazing 3 1 600 50", "GRAZING Ontario 1 600 50.0", "10 3 cows 600 50.00"] {
        assert_eq!(record_typed(1, line), record);
    }
    let place = "refused 6: out of its place: the one farm record is first; \
        enteric, cattle and grazing need a milking, dry or heifer heading, pig a pig heading";
    let fractions = "refused 10: fraction: 99.99 and 0.02 make 100.01, and 100.00 are the most";
    for (line, words) in [
        ("grazing 3 1 600\n", "refused 4: grazing takes 4 values, and 3 are here; expected region, column, live weight, fraction"),
        ("grazing 8 1 600 5\n", "refused 7 field 1: region: \"8\" is out of its range; expected 1 to 7 (atlantic, quebec, \
            ontario, manitoba, saskatchewan, alberta, british-columbia)"),
        ("grazing 3 4 600 5\n", "refused 7 field 2: column: \"4\" is out of its range; expected 1 to 3 (cows, heifers, calves)"),
        ("grazing 3 1 2001 5\n", "refused 7 field 3: live weight: \"2001\" is out of its range; expected 0 to 2000 kg"),
        ("grazing 3 1 600 100.01\n", "refused 7 field 4: fraction: \"100.01\" is out of its range; expected 0 to 100.00 per cent"),
        ("grazing 3 1 600.0 5\n", "not read: grazing, live weight: \"600.0\" is no whole number; expected 0 to 2000 kg"),
    ] {
        assert_eq!(remarks(line), format!("line 3: {words}\n"));
    }
    let told = remarks("grazing 3 1 600 99.99\ngrazing 3 1 600 0.02\n");
    assert_eq!(told, format!("line 4: {fractions}\n"));
    let told = remarks("heading 13 4 40\ngrazing 3 1 600 50\n");
    assert_eq!(told, format!("line 4: {place}\n"));
    // Under a lost heading it is not judged; and it has no days to speak of.
    let told = remarks("headng\ngrazing 9 9 9 9\ngrazing\n");
    let lost =
        "lines 4 to 5: without heading: line 3, which may have been a heading, was not read\n";
    assert!(told.ends_with(lost), "{told}");
    let told = said("farm 7 2010 1\nheading 1 1 1\ngrazing 1 1 600 1\nclose\n");
    assert!(told.starts_with("group 1 milking, 1 head: no days\n"));
}

#[test]
fn grazing_in_the_other_tools() {
    let farm = record_of(kind::FARM, &plain_values(kind::FARM));
    let heading = record_of(kind::HEADING, &[5, 1, 40]);
    let grazing = record_of(kind::GRAZING, &[3, 1, 600, 5_000]);
    let close = record_of(kind::CLOSE, &[3]);
    let book = [farm.clone(), heading.clone(), grazing.clone(), close.clone()].concat();
    let typed = "farm 7 2010 1\nheading 5 milking 40\ngrazing ontario cows 600 50.00\nclose 3\n";
    assert_eq!(retyped(&book).printed, typed);
    let wrong_heading = record_of(kind::HEADING, &[6, 9, 40]);
    let saved = tell(
        &[farm.clone(), heading.clone(), grazing.clone(), wrong_heading, grazing.clone()].concat(),
    );
    assert_eq!(saved.book, book);
    assert!(
        saved.said.contains("record 4: dropped 6: ") && saved.said.ends_with("3 kept, 2 dropped\n")
    );
    let too_much = record_of(kind::GRAZING, &[3, 1, 600, 5_001]);
    let (said, _) = why(&[farm.clone(), heading.clone(), grazing, too_much.clone()].concat());
    let wanted = "refused 10 record 3 bytes 30 to 39 value 10001 limit 10000\n\
        record 3 (grazing, group 5): the sum of fractions with this record is 100.01 per cent; it must be at most 100.00\n";
    assert_eq!(said, wanted);
    assert!(tell(&[farm, heading, too_much.clone(), too_much].concat())
        .said
        .starts_with("record 3: dropped 10: "));
}

#[test]
fn too_much_grazing_is_drawn() {
    let mut dice = Dice::of_case(15, 15);
    let mut met = 0;
    for _ in 0..2_000 {
        let state = right_state(&mut dice, 1);
        if let Some(record) = wrong_record(&mut dice, &state, 10) {
            met += usize::from(record[3] == kind::GRAZING);
        }
    }
    assert!(met > 100, "{met}");
    for index in [13, 53, 93] {
        let (said, _) = why(&doubtful(1, index));
        assert!(said.starts_with("refused 10 ") && said.contains("(grazing, group 12)"), "{said}");
    }
}
