//! Document 02's W5, sentence by sentence, and that the makers of damaged books make what they say.

use crate::makers::damages::damaged;
use crate::makers::desk::long_book;
use crate::makers::plain::{plain_values, sample};
use crate::model::lister::list;
use crate::model::record::record_of;
use crate::model::salvage::{tell, Told, LONGEST};
use std::collections::BTreeSet;

fn farm() -> Vec<u8> {
    record_of(1, &plain_values(1))
}

fn heading(group: u64) -> Vec<u8> {
    record_of(2, &[group, 1, 40])
}

fn ration() -> Vec<u8> {
    record_of(3, &plain_values(3))
}

fn close(count: u64) -> Vec<u8> {
    record_of(8, &[count])
}

fn with(mut record: Vec<u8>, at: usize, byte: u8) -> Vec<u8> {
    record[at] = byte;
    record
}

/// The clean book, and number and code of each dropped record.
fn saved(records: &[Vec<u8>]) -> (Vec<u8>, Vec<(u64, u8)>) {
    let told = tell(&records.concat());
    assert!(told.saved, "{}", told.said);
    assert_eq!(list(&told.book).lines().last(), Some("closed"));
    let lines = told.said.lines().filter_map(|line| line.strip_prefix("record "));
    let dropped = lines.map(|line| {
        let (number, rest) = line.split_once(": dropped ").unwrap();
        (number.parse().unwrap(), rest.split_once(": ").unwrap().0.parse().unwrap())
    });
    (told.book, dropped.collect())
}

#[test]
fn a_right_book_comes_back() {
    let told = tell(&sample());
    assert_eq!((told.book, told.said.as_str()), (sample(), "5 kept, 0 dropped\n"));
}

#[test]
fn a_dropped_heading_takes_its_details_along() {
    let energy = record_of(6, &plain_values(6));
    for (wrong, code) in [
        (with(heading(5), 2, 2), 2),
        ([vec![0, 8, 1, 2], heading(5)[4..].to_vec(), vec![0]].concat(), 4),
        (heading(4), 8),
        (record_of(2, &[5, 9, 40]), 7),
    ] {
        let book = [
            farm(),
            heading(4),
            wrong,
            ration(),
            energy.clone(),
            with(ration(), 2, 3),
            heading(6),
            ration(),
        ];
        let (clean, dropped) = saved(&book);
        assert_eq!(dropped, [(2, code), (3, 6), (5, 2)]);
        assert_eq!(
            clean,
            [farm(), heading(4), energy.clone(), heading(6), ration(), close(5)].concat()
        );
    }
}

#[test]
fn a_heading_with_a_damaged_kind_is_no_heading() {
    let (clean, dropped) = saved(&[farm(), heading(4), with(heading(5), 3, 11), ration()]);
    assert_eq!(dropped, [(2, 3)]);
    assert_eq!(clean, [farm(), heading(4), ration(), close(3)].concat());
}

#[test]
fn what_ends_the_reading_is_not_listed() {
    let clean = [farm(), heading(4), close(2)].concat();
    for end in [close(9), close(2), vec![0, 3], vec![0, 27], vec![0]] {
        let behind = [farm(), heading(4), end, farm(), with(farm(), 2, 0)];
        assert_eq!(saved(&behind), (clean.clone(), Vec::new()));
    }
    for end in [vec![0, 9, 1], vec![0], Vec::new()] {
        assert_eq!(saved(&[farm(), heading(4), end]), (clean.clone(), Vec::new()));
    }
}

#[test]
fn where_the_reading_ended_is_said() {
    let begin = [farm(), heading(4)].concat();
    let at = begin.len();
    for (end, words) in [
        (vec![0, 3, 1], "a length that no record has (3); 3 bytes were not read"),
        (vec![1, 0, 1], "a length that no record has (256); 3 bytes were not read"),
        (vec![0], "a record that is not whole; 1 bytes were not read"),
        (vec![0, 9, 1], "a record that is not whole; 3 bytes were not read"),
        ([close(2), vec![7]].concat(), "its close; 1 bytes were not read"),
        ([close(9), close(2)].concat(), "its close; 6 bytes were not read"),
    ] {
        let told = tell(&[begin.clone(), end].concat());
        let said = format!("reading ended at byte {at}: {words}\n2 kept, 0 dropped\n");
        assert_eq!((told.said, told.saved, told.read), (said, true, false));
    }
    for end in [Vec::new(), close(2), close(9)] {
        let told = tell(&[begin.clone(), end].concat());
        assert_eq!((told.said.as_str(), told.read), ("2 kept, 0 dropped\n", true));
    }
}

#[test]
fn a_detail_that_goes_with_its_heading_names_it() {
    let lost = [farm(), ration(), with(heading(5), 2, 2), ration(), with(ration(), 2, 3)].concat();
    let told = tell(&lost);
    let lines: Vec<&str> = told.said.lines().collect();
    assert!(lines[0].starts_with("record 1: dropped 6: out of its place"), "{lines:?}");
    assert_eq!(lines[2], "record 3: dropped 6: its heading, record 2, was dropped");
    assert!(lines[3].starts_with("record 4: dropped 2: the version"), "{lines:?}");
    assert_eq!(told.list[18..27], [0, 0, 0, 0, 0, 0, 0, 3, 6]);
}

#[test]
fn a_close_before_any_farm_record_is_dropped() {
    assert_eq!(saved(&[close(0), farm(), close(1)]).1, [(0, 6)]);
    assert_eq!(saved(&[farm(), with(close(1), 2, 0), close(1)]).1, [(1, 2)]);
    assert_eq!(saved(&[farm(), vec![0, 5, 1, 8, 0, 1, 0], heading(4)]).1, [(1, 4)]);
}

#[test]
fn several_farm_records() {
    assert_eq!(saved(&[farm(), farm(), heading(4), farm()]).1, [(1, 6), (3, 6)]);
}

#[test]
fn at_4095_kept_records_the_next_is_not_looked_at() {
    for (details, kept, why, unread) in [
        (4_093, 4_094, "its close", 6),
        (4_094, 4_095, "its close", 6),
        (4_095, 4_095, "4095 records are kept", 20),
    ] {
        let Told { book, said, read, .. } =
            tell(&[long_book(details), vec![0, 4, 2, 8, 0, 0]].concat());
        let at = book.len() - 6;
        let ended = format!("reading ended at byte {at}: {why}; {unread} bytes were not read\n");
        assert_eq!((said, read), (format!("{ended}{kept} kept, 0 dropped\n"), false));
    }
    let told = tell(&long_book(4_094));
    assert_eq!((told.said.as_str(), told.read), ("4095 kept, 0 dropped\n", true));
}

#[test]
fn no_farm_record_is_19() {
    for (damaged, hint) in [
        (Vec::new(), "this is empty: a book begins with its farm record\n"),
        (heading(4), ""),
        ([heading(4), ration(), close(2)].concat(), ""),
        (
            b"farm 7 2010 1\n".to_vec(),
            "this looks like a typed book: bin/writer makes a book of it\n",
        ),
        (b"kind,group,ch4\r\n".to_vec(), "this looks like a sheet: bin/unsheet reads it\n"),
    ] {
        let Told { book, said, saved, .. } = tell(&damaged);
        assert_eq!((book, said, saved), (Vec::new(), format!("refused 19\n{hint}"), false));
    }
}

/// A farm record and dropped ones, so many bytes.
fn dropping(bytes: usize) -> Vec<u8> {
    let unknown = |size: usize| [vec![0, size as u8 - 2, 1, 99], vec![0; size - 4]].concat();
    let mut book = farm();
    while book.len() + 12 <= bytes {
        book.extend(unknown(6));
    }
    let last = bytes - book.len();
    [book, unknown(last)].concat()
}

#[test]
fn the_longest_book() {
    assert!(tell(&dropping(LONGEST)).saved);
    assert!(!tell(&dropping(LONGEST + 1)).saved);
}

#[test]
fn what_stands_after_the_end_does_not_count() {
    let after = vec![0; 300_000];
    for book in [dropping(LONGEST), sample(), [farm(), vec![0; 2]].concat()] {
        let (alone, followed) = (tell(&book), tell(&[&book[..], &after[..]].concat()));
        assert!(alone.saved);
        assert_eq!(alone.book, followed.book);
        assert_eq!(alone.said.lines().last(), followed.said.lines().last());
        assert!(followed.said.contains(" bytes were not read\n") && !followed.read);
    }
}

#[test]
fn damaged_books_are_damaged_in_every_way() {
    let told: Vec<Told> = (0..500).map(|index| tell(&damaged(1, index))).collect();
    let codes: BTreeSet<&str> = told
        .iter()
        .flat_map(|t| t.said.lines())
        .filter_map(|line| line.split(": ").nth(1))
        .collect();
    let wanted = [2, 3, 4, 6, 7, 8, 9, 10, 11].map(|code| format!("dropped {code}"));
    assert!(wanted.iter().all(|code| codes.contains(code.as_str())), "{codes:?}");
    assert!(told.iter().filter(|t| !t.saved).count() > 20);
    assert!(told.iter().filter(|t| t.said.ends_with(" kept, 0 dropped\n")).count() > 20);
    assert!(told.iter().any(|t| t.said.contains("4095 kept")));
}
