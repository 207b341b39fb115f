//! A close at the end of a text, before it, behind a failed line, wrong in itself, and none.

use super::typed::{messages, remarks, said, verdict, MILKING};
use crate::makers::books::after;
use crate::makers::plain::sample;
use crate::model::record::record_of;
use crate::model::state::{State, CLOSED, OPEN};
use crate::model::typed::enter;

fn withheld(close: u64, failed: u64) -> String {
    format!("line {close}: close withheld: line {failed} failed, and a book with a failed line is not closed\n")
}

fn early(close: u64, next: u64) -> String {
    format!("line {close}: close too early: line {next} comes after it\n")
}

#[test]
fn a_right_close_at_the_end() {
    let closed = "closed: 2 written, 0 refused, 0 not read, 0 without heading, 0 unusual\n";
    for close in
        ["close", "CLOSE", "8", "close 1", "8 0001", "close\n\n \t\r\n# the end\n", "close\n#"]
    {
        let entered = enter(format!("farm 7 2010 1\n{close}\n").as_bytes());
        assert_eq!((entered.said.as_str(), entered.right), (closed, true), "{close}");
        assert_eq!(after(&State::default(), &entered.book).stage, CLOSED);
    }
}

#[test]
fn an_early_close() {
    let entered = enter(b"farm 7 2010 1\nclose\n\n# more\nsoil 1\n");
    let wanted = early(2, 5)
        + "not closed: 2 written, 0 refused, 0 not read, 0 without heading, 0 unusual\n";
    assert_eq!((entered.said, entered.right), (wanted, false));
    let book = [record_of(1, &[7, 2010, 1]), record_of(7, &[100])].concat();
    assert_eq!(entered.book, book);
    assert_eq!(after(&State::default(), &entered.book).stage, OPEN);
}

/// The early close is said before whatever is said of the line behind it.
#[test]
fn whatever_comes_after_it_makes_it_early() {
    for (line, words) in [
        ("soil", "refused 4: soil takes 1 value, and 0 are here; expected area"),
        ("soil x", "not read: soil, area: \"x\" is no number; expected 0 to 100000.00 ha"),
        ("99", "refused 3: no such kind of record: kinds are 1 to 10"),
        (
            "farm 7 2010 1",
            "refused 6: out of its place: the one farm record is first; \
            enteric, cattle and grazing need a milking, dry or heifer heading, pig a pig heading",
        ),
        (
            "close x",
            "not read: close, records before it: \"x\" is no whole number; expected 0 to 65535",
        ),
        ("close", "close withheld: line 3 failed, and a book with a failed line is not closed"),
        ("close 1 2", "close withheld: line 3 failed, and a book with a failed line is not closed"),
    ] {
        assert_eq!(
            remarks(&format!("close\n{line}\n")),
            early(3, 4) + &format!("line 4: {words}\n")
        );
    }
    let long = "line 4: not read: the line is too long: at most 1023 bytes before its #\n";
    assert_eq!(remarks(&format!("close\n{}\n", " ".repeat(1_024))), early(3, 4) + long);
    assert_eq!(remarks("close\nheading 13 dry 1\nenteric 1 200 6\n"), early(3, 4));
}

/// A close that was too early counts as a failed line, so that of two only the first is early.
#[test]
fn two_early_closes() {
    assert_eq!(remarks("close\nsoil 1\nclose\nsoil 1\n"), early(3, 4) + &withheld(5, 3));
    assert_eq!(remarks("close\nclose\nclose\n"), early(3, 4) + &withheld(4, 3) + &withheld(5, 3));
    let counts = verdict(&format!("{MILKING}close\nsoil 1\nclose 3\n"));
    let wanted = "not closed: 3 written, 0 refused, 0 not read, 0 without heading, 0 unusual";
    assert_eq!(counts, wanted);
}

/// Behind an early close the heading and its days go on.
#[test]
fn the_book_stays_open_as_if_the_close_were_not_there() {
    let text =
        format!("{MILKING}enteric 365 300 6.5\nclose\nenteric 1 300 6.5\nenteric 1 300 6.5\n");
    // 30000 x 650 x 40 x 365 / 55650 is 5115902.97, and a day of it 14016.17.
    let wanted = early(4, 5)
        + "line 6: refused 9: days: 366 and 1 make 367, and 366 are the most\n\
        group 12 milking, 40 head: enteric 366 days of 365; CH4 5129.919 kg, 128.2 kg a head\n\
        not closed: 4 written, 1 refused, 0 not read, 0 without heading, 0 unusual\n";
    assert_eq!(said(&text), wanted);
}

#[test]
fn a_count_is_judged_where_it_stands() {
    let twelve = "refused 12: the close counts other records than there are before it; left out, the count is filled in\n";
    assert_eq!(remarks("close 2\n"), "");
    assert_eq!(remarks("close 2\nsoil 1\n"), early(3, 4));
    assert_eq!(remarks("close 3\nsoil 1\n"), format!("line 3: {twelve}"));
    assert_eq!(remarks("soil 1\nclose 2\n"), format!("line 4: {twelve}"));
    let range = "refused 7 field 1: records before it: \"65536\" is out of its range; expected 0 to 65535\n";
    assert_eq!(remarks("close 65536\n"), format!("line 3: {range}"));
    let count = "refused 4: close takes 1 value, and 2 are here; expected records before it\n";
    assert_eq!(remarks("close 2 x\n"), format!("line 3: {count}"));
    // A refused close failed, and the next one is withheld.
    assert_eq!(remarks("close 9\nclose 2\n"), format!("line 3: {twelve}") + &withheld(4, 3));
    let full = format!("farm 7 2010 1\n{}close 7 7\nclose\n", "soil 1\n".repeat(4_095));
    let told = messages(&full);
    assert_eq!(told, format!("line 4097: {count}") + &withheld(4_098, 4_097));
}

#[test]
fn a_book_with_a_failed_line_is_not_closed() {
    for failing in ["soil", "soil x", "headng\nenteric 1 1 1", "close 9", "77 x"] {
        let lines = failing.lines().count() as u64;
        for close in ["close", "close 2", "close 9", "close 1 2", "close 70000 hay", "8 2"] {
            let told = remarks(&format!("{failing}\n{close}\n"));
            assert!(told.ends_with(&withheld(3 + lines, 3)), "{told}");
        }
    }
    let told = messages("soil\nfarm 7 2010 1\nclose\n");
    let wanted =
        "line 1: refused 4: soil takes 1 value, and 0 are here; expected area\n".to_string();
    assert_eq!(told, wanted + &withheld(3, 1));
    let not_read =
        "not read: close, records before it: \"x\" is no whole number; expected 0 to 65535\n";
    assert!(remarks("soil\nclose x 1\n").ends_with(&format!("line 4: {not_read}")));
    assert_eq!(remarks("close x\nclose\n"), format!("line 3: {not_read}") + &withheld(4, 3));
    // Early and withheld ones are in none of the counts.
    let counts = verdict("farm 7 2010 1\nsoil\nclose\nclose\n");
    let wanted = "not closed: 1 written, 1 refused, 0 not read, 0 without heading, 0 unusual";
    assert_eq!(counts, wanted);
}

#[test]
fn before_the_farm_record_a_close_is_refused() {
    let six = "refused 6: out of its place: the one farm record is first; \
        enteric, cattle and grazing need a milking, dry or heifer heading, pig a pig heading\n";
    for close in ["close", "close 0", "close 5"] {
        assert_eq!(messages(&format!("{close}\n")), format!("line 1: {six}"));
    }
    let count = "refused 4: close takes 1 value, and 2 are here; expected records before it\n";
    assert_eq!(messages("close 0 0\n"), format!("line 1: {count}"));
    // A line that failed does not withhold it, but it is one that failed.
    assert!(messages("headng\nclose\n").ends_with(&format!("line 2: {six}")));
    let told = messages("close\nfarm 7 2010 1\nclose\n");
    assert_eq!(told, format!("line 1: {six}") + &withheld(3, 1));
}

#[test]
fn a_text_without_a_close() {
    let counts = "not closed: 1 written, 0 refused, 0 not read, 0 without heading, 0 unusual\n";
    let wanted = format!("no close: the text ends without one\n{counts}");
    assert_eq!(said("farm 7 2010 1\n# close\n"), wanted);
    assert!(said("headng\n").contains("\nno close: the text ends without one\nnot closed: "));
    assert!(said("77 close\n").contains("\nno close: the text ends without one\nnot closed: "));
    for close in ["close x", "8 x", "close 1 2", "close 99999", "close\nsoil 1", "soil\nclose"] {
        let told = said(&format!("farm 7 2010 1\n{close}\n"));
        assert!(!told.contains("no close: "), "{told}");
    }
    assert!(!said("close\n").contains("no close: "));
}

#[test]
fn the_close_is_the_last_record() {
    let entered = enter(include_bytes!("../../../samples/sample.txt"));
    assert_eq!(entered.book[57..], [0, 4, 1, 8, 0, 5]);
    let text = [include_str!("../../../samples/sample.txt"), "soil 1\n"].concat();
    let open = enter(text.as_bytes()).book;
    assert_eq!(open, [&sample()[..57], &record_of(7, &[100])].concat());
}
