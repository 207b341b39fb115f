//! Document 02's W11: farm records of version 2, their refusals, totals by any factors, and version 2 in every tool.

use super::typed::{said, verdict};
use super::{accepted, all, refused_by, under, COW};
use crate::makers::books::{after, right_close};
use crate::makers::cases;
use crate::makers::damages;
use crate::makers::doubts::{doubtful, enough};
use crate::makers::plain::{plain_values, sample, FARM_2};
use crate::makers::states::{least_co2, most_sums};
use crate::makers::texts::text;
use crate::makers::trial::{hex, Case};
use crate::makers::warmings::{of_no_version, of_wrong_length, with_farm};
use crate::model::feed::Answer;
use crate::model::figures::Figures;
use crate::model::kind;
use crate::model::lister::list;
use crate::model::programs::retyped;
use crate::model::record::record_of;
use crate::model::salvage::tell;
use crate::model::state::{Refusal, State, OPEN};
use crate::model::typed::enter;
use crate::model::warming::{factors, Factors, NONE, SET_1, SET_2};
use crate::model::why::why;
use crate::model::writer::write;
use std::collections::BTreeSet;

fn farm_1(set: u64) -> Vec<u8> {
    record_of(kind::FARM, &[7, 2010, set])
}

fn farm_2(ch4: u64, n2o: u64) -> Vec<u8> {
    record_of(kind::FARM, &[7, 2010, ch4, n2o])
}

/// Document 01's P5, P6 as W3 has it, and P8 behind a farm record.
fn book(farm: Vec<u8>) -> Vec<u8> {
    let records = [
        farm,
        record_of(kind::HEADING, &[1, 1, 1]),
        record_of(kind::ENTERIC, &[365, 30_000, 650]),
        record_of(kind::HEADING, &[2, 1, 10]),
        record_of(kind::CATTLE, &COW),
        record_of(kind::SOIL, &[100]),
        record_of(kind::CLOSE, &[6]),
    ];
    records.concat()
}

fn listed(co2e: &str) -> String {
    format!(
        "3 1 127898 0 0 0 0 0
16 1 127898 0 0 0 0 0
4 2 0 28762 0 1318672 0 0
7 0 0 0 18333333 0 0 0
16 2 0 28762 0 1318672 0 0
8 0 127898 28762 18333333 1318672 0 0 {co2e}
closed
"
    )
}

#[test]
fn the_bytes_of_version_2() {
    assert_eq!(hex(&farm_2(21, 310)), "000c02010000000707da00150136");
    assert_eq!(hex(&farm_2(1_000, 1)), "000c02010000000707da03e80001");
    assert_eq!(hex(&farm_1(1)), "000901010000000707da01");
}

#[test]
fn totals_by_any_factors() {
    // 18333333 + 127898 + 28762000; then 127898000 and 28762; then both times 1000, both times 1.
    assert_eq!(list(&book(farm_2(1, 1_000))), listed("47223231"));
    assert_eq!(list(&book(farm_2(1_000, 1))), listed("146260095"));
    assert_eq!(list(&book(farm_2(1_000, 1_000))), listed("174993333"));
    assert_eq!(list(&book(farm_2(1, 1))), listed("18489993"));
    // 298 × 28762 = 8571076, 25 × 127898 = 3197450.
    assert_eq!(list(&book(farm_2(25, 298))), listed("30101859"));
}

#[test]
fn the_sets_factors_give_the_sets_totals() {
    // 21 × 127898 = 2685858, 310 × 28762 = 8916220; 23 × 127898 = 2941654, 296 × 28762 = 8513552.
    for (set, pair, co2e) in [(1, [21, 310], "29935411"), (2, [23, 296], "29788539")] {
        assert_eq!(list(&book(farm_1(set))), listed(co2e));
        assert_eq!(list(&book(farm_2(pair[0], pair[1]))), listed(co2e));
        let after_farm = |farm: &[u8]| after(&State::default(), farm);
        assert_eq!(after_farm(&farm_1(set)), after_farm(&farm_2(pair[0], pair[1])));
    }
    let twins = [list(&sample()), list(&with_farm(SET_1, &sample()))];
    assert!(twins[0] == twins[1] && twins[0].contains(" 18241034\n"));
    // 875000 + 826954 by 1 and 1000.
    assert!(list(&with_farm(factors(1, 1_000), &sample())).contains(" 1701954\nclosed\n"));
}

#[test]
fn a_farm_record_sets_the_states_factors() {
    for (farm, wanted) in [
        (farm_1(1), SET_1),
        (farm_1(2), SET_2),
        (farm_2(1, 1_000), factors(1, 1_000)),
        (farm_2(1_000, 1), factors(1_000, 1)),
    ] {
        let reply = all(&State::default(), &farm);
        assert_eq!((reply.answer, reply.taken, reply.lines.len()), (Answer::More, farm.len(), 0));
        let wanted = State { stage: OPEN, records: 1, factors: wanted, ..State::default() };
        assert_eq!(reply.state, wanted);
    }
}

#[test]
fn version_and_kind_byte_together() {
    let record = |length: u8, version: u8, kind: u8| {
        let mut record = vec![0, length, version, kind, 0, 0, 0, 7, 7, 218, 0, 21, 1, 54];
        record.resize(2 + usize::from(length), 0);
        record
    };
    let refused = |record: &[u8]| refused_by(&State::default(), record).0;
    for kind in (0..=255).filter(|&kind| kind != 1) {
        for version in [0, 2, 3, 255] {
            assert_eq!(refused(&record(12, version, kind)), 2);
        }
    }
    for version in [0, 3, 4, 128, 255] {
        for length in [9, 12] {
            assert_eq!(refused(&record(length, version, 1)), 2);
        }
    }
    for kind in [0, 11, 12, 255] {
        assert_eq!(refused(&record(12, 1, kind)), 3);
    }
    for length in (4..=26).filter(|&length| length != 12) {
        assert_eq!(refused(&record(length, 2, 1)), 4);
    }
    for length in (4..=26).filter(|&length| length != 9) {
        assert_eq!(refused(&record(length, 1, 1)), 4);
    }
    assert!(accepted(&State::default(), &record(12, 2, 1)));
    assert!(of_no_version().iter().all(|book| refused(book) == 2));
    assert!(of_wrong_length().iter().all(|book| refused(book) == 4));
}

#[test]
fn the_fields_of_version_2() {
    let refused = |values: [u64; 4]| refused_by(&State::default(), &record_of(1, &values));
    for year in [1899, 2201] {
        assert_eq!(refused([7, year, 0, 0]), (7, 2));
    }
    for wrong in [0, 1_001, 65_535] {
        assert_eq!(refused([7, 2010, wrong, 0]), (7, 3));
        assert_eq!(refused([7, 2010, 1, wrong]), (7, 4));
    }
    for year in [1900, 2200] {
        for ch4 in [1, 1_000] {
            for n2o in [1, 1_000] {
                let record = record_of(1, &[u64::from(u32::MAX), year, ch4, n2o]);
                assert!(accepted(&State::default(), &record));
            }
        }
    }
}

#[test]
fn a_second_farm_record_is_out_of_its_place() {
    for first in [farm_1(1), farm_2(21, 310)] {
        let state = after(&State::default(), &first);
        for second in [farm_1(2), farm_2(1, 1), farm_2(0, 0)] {
            assert_eq!(refused_by(&state, &second), (6, 0));
            assert_eq!(after(&state, &second).factors, state.factors);
        }
    }
}

#[test]
fn the_ranges_of_a_states_factors() {
    let fits = |state: State, pair: Factors| State { factors: pair, ..state }.in_range();
    for state in [State { records: 1, ..under(1, 1) }, State::default()] {
        let none = State { heading: Default::default(), ..state };
        for pair in [factors(0, 1), factors(1, 0), factors(0, 1_000), factors(1_001, 1_001)] {
            assert!(!fits(none, pair));
        }
        assert_eq!(fits(none, NONE), none.records == 0);
        for pair in [factors(1, 1), factors(1_000, 1_000), factors(310, 21), SET_2] {
            assert_eq!(fits(none, pair), none.records > 0);
        }
        for pair in [factors(1, 1_001), factors(1_001, 1), factors(65_535, 1)] {
            assert!(!fits(none, pair));
        }
    }
    let wrong = State { factors: factors(21, 0), ..under(1, 1) };
    let reply = all(&wrong, &right_close(&wrong));
    assert_eq!(reply.answer, Answer::Refused(Refusal { code: 13, record: 0, field: 0 }));
    assert_eq!((reply.state, reply.taken), (wrong, 0));
}

#[test]
fn a_close_from_a_state_in_the_middle() {
    let sums = Figures { ch4: 2, n2o: 3, co2: -5, excreted: 7, land: 11, grazing: 13 };
    for (ch4, n2o, co2e) in [(1, 1_000, 3_010), (1_000, 1, 2_011), (7, 7, 43), (310, 21, 691)] {
        let state = State { factors: factors(ch4, n2o), sums, ..under(1, 1) };
        let reply = all(&state, &right_close(&state));
        assert_eq!(reply.lines[108..], i64::to_be_bytes(co2e));
        assert_eq!(reply.state.factors, state.factors);
    }
}

#[test]
fn the_largest_co2e() {
    let with = |sums| State { records: 4_095, factors: factors(1_000, 1_000), sums, ..under(1, 1) };
    // 4.095 × (10^16 + 10^17 + 10^16 + 10^14), and with the first below zero.
    for (sums, co2e) in [
        (most_sums(4_095), 491_809_500_000_000_000_i64),
        (least_co2(4_095), 409_909_500_000_000_000),
    ] {
        let state = with(sums);
        assert_eq!(all(&state, &right_close(&state)).lines[108..], co2e.to_be_bytes());
    }
}

#[test]
fn three_or_four_values_are_written() {
    let start = State::default();
    let wrote = write(&start, 1, &[7, 2010, 21, 310], 14).unwrap();
    assert_eq!((wrote.bytes, wrote.state.factors), (farm_2(21, 310), SET_1));
    let wrote = write(&start, 1, &[7, 2010, 2], 11).unwrap();
    assert_eq!((wrote.bytes, wrote.state.factors), (farm_1(2), SET_2));
    let refused = |state: &State, values: &[u64], room| {
        let refusal = write(state, 1, values, room).unwrap_err();
        (refusal.code, refusal.field)
    };
    for room in 0..14 {
        assert_eq!(refused(&start, &FARM_2, room), (16, 0));
    }
    for count in [0, 1, 2, 5, 6, 20] {
        assert_eq!(refused(&start, &vec![0; count], 0), (4, 0));
    }
    assert_eq!(refused(&under(1, 1), &[0; 4], 0), (6, 0));
    assert_eq!(refused(&State { records: 4_096, ..under(1, 1) }, &[0; 4], 0), (5, 0));
    for wrong in [0, 1_001, 65_536 + 21, u64::MAX] {
        assert_eq!(refused(&start, &[7, 2010, wrong, wrong], 0), (7, 3));
        assert_eq!(refused(&start, &[7, 2010, 1_000, wrong], 0), (7, 4));
    }
    assert_eq!(refused(&start, &[7, 2010, 21], 0), (7, 3));
    // Four values of another kind are no version 2 of it.
    assert_eq!(write(&under(1, 1), 3, &[1, 1, 1, 1], 64).unwrap_err().code, 4);
}

#[test]
fn a_typed_farm_line_of_another_count() {
    for (line, here) in [
        ("farm", "0 are"),
        ("farm 7", "1 is"),
        ("farm 7 2010", "2 are"),
        ("farm 7 2010 21 310 1", "5 are"),
        ("farm 7 2010 1 x 1", "5 are"),
    ] {
        let wanted = format!(
            "line 1: refused 4: farm takes 3 or 4 values, and {here} here; expected farm number, year, warming set, \
             or farm number, year, CH4 factor, N2O factor\n"
        );
        assert!(said(line).starts_with(&wanted), "{line}: {}", said(line));
    }
}

#[test]
fn a_typed_farm_line() {
    for line in ["farm 7 2010 21 310", "FARM 0007 2010 021 00310 # abroad", "1\t7 2010 21 310\r"] {
        assert_eq!(enter(format!("{line}\nclose\n").as_bytes()).book[..14], farm_2(21, 310));
        let wanted = "closed: 2 written, 0 refused, 0 not read, 0 without heading, 0 unusual";
        assert_eq!(verdict(&format!("{line}\nclose\n")), wanted);
    }
    let no_set = "not read: farm, warming set: \"x\" is no whole number; \
        expected 1 or 2 (or the CH4 and the N2O factor in its place)";
    let wrong_set = "refused 7 field 3: warming set: \"21\" is out of its range; \
        expected 1 or 2 (or the CH4 and the N2O factor in its place)";
    for (line, words) in [
        ("farm 7 2010 21", wrong_set),
        ("farm 7 2010 0 310", "refused 7 field 3: CH4 factor: \"0\" is out of its range; expected 1 to 1000"),
        ("farm 7 2010 1001 0", "refused 7 field 3: CH4 factor: \"1001\" is out of its range; expected 1 to 1000"),
        ("1 7 2010 1000 1001", "refused 7 field 4: N2O factor: \"1001\" is out of its range; expected 1 to 1000"),
        ("farm 7 2201 0 0", "refused 7 field 2: year: \"2201\" is out of its range; expected 1900 to 2200"),
        ("farm 4294967296 2010 1 1", "refused 7 field 1: farm number: \"4294967296\" is out of its range; expected 0 to 4294967295"),
        ("farm 7 2010 21.0 310", "not read: farm, CH4 factor: \"21.0\" is no whole number; expected 1 to 1000"),
        ("farm 7 2010 21 x", "not read: farm, N2O factor: \"x\" is no whole number; expected 1 to 1000"),
        ("farm 7 2010 x", no_set),
        ("farm 7 2010 x 310 1", no_set),
    ] {
        assert!(said(line).starts_with(&format!("line 1: {words}\n")), "{line}: {}", said(line));
    }
    let told = said("farm 7 2012 21 310\nheading 1 4 2\npig 365 0 0 0 0 0 0 0 0 0 0 0\nfarm 7 2010 1\nfarm 7 2010 1 1\n");
    assert!(told.contains("line 4: refused 6: ") && told.contains("line 5: refused 6: "));
    assert!(told.contains("group 1 pig, 2 head: pig 365 days of 366\n"));
}

#[test]
fn retyped_as_it_was_typed() {
    let typed =
        "farm 7 2010 21 310\nheading 1 milking 1\nenteric 365 300.00 6.50\nheading 2 milking 10\n\
        cattle 365 20.00 16.00 30.00 3.20 0 20.00 80.00 0.00\nsoil 1.00\nclose 6\n";
    assert_eq!(retyped(&book(farm_2(21, 310))).printed, typed);
    assert_eq!(enter(typed.as_bytes()).book, book(farm_2(21, 310)));
}

#[test]
fn why_a_version_or_a_length_is_refused() {
    let v2 = farm_2(21, 310);
    let with = |at: usize, byte: u8| {
        let mut record = v2.clone();
        record[at] = byte;
        record
    };
    let heading = |version| {
        let mut record = record_of(kind::HEADING, &plain_values(kind::HEADING));
        record[2] = version;
        [v2.clone(), record].concat()
    };
    let short = [vec![0, 9, 2, 1], v2[4..11].to_vec()].concat();
    let long = [vec![0, 12, 1, 1], v2[4..].to_vec()].concat();
    for (book, code, bytes, name, value, limit, words) in [
        (with(2, 0), 2, "0 to 13", " (farm)", 0, 1, "the version is 0; it must be at least 1"),
        (with(2, 3), 2, "0 to 13", " (farm)", 3, 2, "the version is 3; it must be at most 2"),
        (with(2, 255), 2, "0 to 13", " (farm)", 255, 2, "the version is 255; it must be at most 2"),
        (with(3, 2), 2, "0 to 13", " (heading)", 2, 1, "the version is 2; it must be 1"),
        (with(3, 11), 2, "0 to 13", "", 2, 1, "the version is 2; it must be 1"),
        (with(3, 0), 2, "0 to 13", "", 2, 1, "the version is 2; it must be 1"),
        (short, 4, "0 to 10", " (farm)", 9, 12, "the length (of version 2) is 9; it must be 12"),
        (long, 4, "0 to 13", " (farm)", 12, 9, "the length (of version 1) is 12; it must be 9"),
    ] {
        let wanted = format!(
            "refused {code} record 0 bytes {bytes} value {value} limit {limit}\nrecord 0{name}: {words}\n"
        );
        assert_eq!(why(&book), (wanted, false));
    }
    for (version, words) in [(0, "0; it must be 1"), (2, "2; it must be 1"), (3, "3; it must be 1")]
    {
        let wanted = format!(
            "refused 2 record 1 bytes 14 to 22 value {version} limit 1\nrecord 1 (heading): the version is {words}\n"
        );
        assert_eq!(why(&heading(version)).0, wanted);
    }
}

#[test]
fn why_a_factor_is_refused() {
    for (pair, field, value, limit, words) in [
        ((0, 1), 3, 0, 1, "CH4 factor is 0; it must be at least 1"),
        ((1_001, 0), 3, 1_001, 1_000, "CH4 factor is 1001; it must be at most 1000"),
        ((1, 0), 4, 0, 1, "N2O factor is 0; it must be at least 1"),
        ((1_000, 65_535), 4, 65_535, 1_000, "N2O factor is 65535; it must be at most 1000"),
    ] {
        let wanted = format!(
            "refused 7 record 0 bytes 0 to 13 field {field} value {value} limit {limit}\nrecord 0 (farm): {words}\n"
        );
        assert_eq!(why(&farm_2(pair.0, pair.1)).0, wanted);
    }
    assert!(why(&book(farm_2(1, 1_000))).1);
    let cut = why(&farm_2(1, 1_000)[..5]).0;
    assert!(cut.starts_with("unfinished: 9 bytes missing\n"));
}

#[test]
fn farm_records_in_a_damaged_book() {
    let mut no_version = farm_2(21, 310);
    no_version[2] = 3;
    let short = [vec![0, 9, 2, 1], farm_1(1)[4..].to_vec()].concat();
    let rest = book(farm_1(1))[11..].to_vec();
    let kept = farm_2(1, 1_000);
    let damaged =
        [no_version, short, farm_2(0, 1), kept.clone(), farm_1(1), farm_2(21, 310), rest].concat();
    let told = tell(&damaged);
    assert_eq!(told.book, book(kept));
    let place = "out of its place: the one farm record is first; \
        enteric, cattle and grazing need a milking, dry or heifer heading, pig a pig heading";
    let wanted = format!(
        "record 0: dropped 2: the version is not 1, nor 2 of a farm record
record 1: dropped 4: a wrong length or count of values
record 2: dropped 7: a value is out of its range
record 4: dropped 6: {place}
record 5: dropped 6: {place}
6 kept, 5 dropped
"
    );
    assert_eq!(told.said, wanted);
    assert_eq!(tell(&book(farm_2(1, 1))).book, book(farm_2(1, 1)));
}

/// The first bytes of a book, where its farm record is of version 2.
fn begins_with_version_2(book: &[u8]) -> bool {
    book.starts_with(&[0, 12, 2, 1])
}

#[test]
fn version_2_is_drawn_by_every_maker() {
    let (mut books, mut writes, mut damaged, mut states) = (0, 0, 0, BTreeSet::new());
    for index in 0..8_000 {
        match cases::fresh(21, index) {
            Case::Book { state, input, .. } => {
                books += usize::from(begins_with_version_2(&input));
                states.insert((state.factors.ch4, state.factors.n2o));
            }
            Case::Write { kind: 1, values, .. } => writes += usize::from(values.len() == 4),
            Case::Damaged { book, .. } => damaged += usize::from(begins_with_version_2(&book)),
            _ => (),
        }
    }
    assert!(books > 300 && writes > 50 && damaged > 50, "{books} {writes} {damaged}");
    for pair in [(0, 0), (1, 1), (1, 1_000), (1_000, 1), (310, 21), (21, 310), (23, 296)] {
        assert!(states.contains(&pair), "{pair:?}");
    }
    assert!(states.iter().any(|pair| pair.0 == 1_001) && states.iter().any(|pair| pair.1 == 1_001));
    let typed = (0..300).filter(|&index| begins_with_version_2(&enter(&text(21, index)).book));
    assert!(typed.count() > 50);
    let saved = (0..300).filter(|&index| begins_with_version_2(&damages::damaged(21, index)));
    assert!(saved.count() > 50);
}

#[test]
fn why_is_asked_of_every_version() {
    let said: String = (0..enough()).map(|index| why(&doubtful(21, index)).0).collect();
    for (value, limit) in [(0, 1), (3, 2), (255, 2), (2, 1)] {
        assert!(said.contains(&format!(" value {value} limit {limit}\nrecord ")), "{value}");
    }
    for words in [
        "(farm): the length (of version 2) is 9; it must be 12",
        "(farm): the length (of version 1) is 12; it must be 9",
        "bytes 0 to 13 field 2 value 2201 limit 2200\n",
        "bytes 0 to 13 field 3 value 0 limit 1\n",
        "bytes 0 to 13 field 3 value 1001 limit 1000\n",
        "bytes 0 to 13 field 4 value 0 limit 1\n",
        "bytes 0 to 13 field 4 value 65535 limit 1000\n",
        "(grazing, group 12): fraction is 655.35 per cent; it must be at most 100.00",
    ] {
        assert!(said.contains(words), "{words}");
    }
}
