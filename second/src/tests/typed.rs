//! The typed book: the samples, what is said at the end of a text, and texts by chance.

use crate::makers::books::after;
use crate::makers::plain::sample;
use crate::makers::texts::text;
use crate::makers::writes::records_of;
use crate::model::fields::spoken_of;
use crate::model::programs::retyped;
use crate::model::state::{State, CLOSED, OPEN};
use crate::model::typed::{enter, Entered};
use crate::model::words::kind_name;
use std::collections::BTreeSet;

/// A farm record and a heading of milking cows, in lines 1 and 2.
pub const MILKING: &str = "farm 7 2010 1\nheading 12 milking 40\n";

pub fn said(text: &str) -> String {
    enter(text.as_bytes()).said
}

/// The lines of what is said that are wanted.
fn those(said: &str, wanted: fn(&str) -> bool) -> String {
    said.lines().filter(|line| wanted(line)).fold(String::new(), |text, line| text + line + "\n")
}

/// The messages of what is said.
pub fn messages(text: &str) -> String {
    those(&said(text), |line| line.starts_with("line") && !line.contains(": unusual: "))
}

/// The messages on the lines behind a farm record and a heading.
pub fn remarks(lines: &str) -> String {
    messages(&format!("{MILKING}{lines}"))
}

/// The unusual values of a text.
pub fn unusual(text: &str) -> String {
    those(&said(text), |line| line.contains(": unusual: "))
}

pub fn verdict(text: &str) -> String {
    said(text).lines().last().expect("there is always a verdict").to_string()
}

/// The record of the one line behind a farm record and a heading; none where it was not written.
pub fn record_typed(class: u8, line: &str) -> Option<Vec<u8>> {
    let before = format!("farm 7 2010 1\nheading 12 {class} 40\n");
    let book = enter(format!("{before}{line}\n").as_bytes()).book;
    let record = book[enter(before.as_bytes()).book.len()..].to_vec();
    (!record.is_empty()).then_some(record)
}

#[test]
fn the_stored_mistakes() {
    let entered = enter(include_bytes!("../../../samples/mistakes.txt"));
    assert_eq!(entered.said, include_str!("../../../samples/mistakes.said"));
    assert!(!entered.right);
    assert_eq!(after(&State::default(), &entered.book).stage, OPEN);
}

#[test]
fn the_sample() {
    let entered = enter(include_bytes!("../../../samples/sample.txt"));
    assert_eq!(entered.book, sample());
    assert!(entered.right);
    // 826954 g of 40 cows are 20673.85 g a head.
    let wanted =
        "group 12 milking, 40 head: enteric 59 days of 365; CH4 826.954 kg, 20.7 kg a head\n\
        closed: 6 written, 0 refused, 0 not read, 0 without heading, 0 unusual\n";
    assert_eq!(entered.said, wanted);
}

/// A record of every kind, a whole year in each group, nothing unusual.
#[test]
fn the_farm() {
    let entered = enter(include_bytes!("../../../samples/farm.txt"));
    assert!(entered.right);
    let kinds: BTreeSet<u8> = records_of(&entered.book).iter().map(|record| record[3]).collect();
    assert_eq!(kinds, (1..=10).collect());
    let (groups, rest): (Vec<&str>, Vec<&str>) =
        entered.said.lines().partition(|line| line.starts_with("group "));
    assert_eq!(rest, ["closed: 27 written, 0 refused, 0 not read, 0 without heading, 0 unusual"]);
    // Of the milking cows: 38000 x 650 x 60 x 212 / 55650 is 5645714.29, 36500 x 650 x 60 x 153 / 55650 is 3913665.77.
    let milking = "group 10 milking, 60 head: enteric 365 days, cattle 365 days; CH4 9559.380 kg, 159.3 kg a head; N2O ";
    assert!(groups[0].starts_with(milking), "{}", groups[0]);
    for (group, words) in groups.iter().zip([
        "group 10 milking, 60 head: enteric 365 days, cattle 365 days; CH4 ",
        "group 20 dry, 10 head: enteric 365 days, cattle 365 days; CH4 ",
        "group 30 heifer, 25 head: enteric 365 days, cattle 365 days; CH4 ",
        "group 40 heifer, 18 head: enteric 365 days, cattle 365 days; CH4 ",
        "group 50 pig, 120 head: pig 365 days; CH4 ",
    ]) {
        assert!(group.starts_with(words), "{group}");
    }
    assert_eq!(groups.len(), 5);
    let again = retyped(&entered.book).printed;
    assert_eq!(enter(again.as_bytes()).book, entered.book);
}

#[test]
fn texts_without_a_word() {
    let wanted = "not closed: 0 written, 0 refused, 0 not read, 0 without heading, 0 unusual\n";
    for text in ["", "\n\n", "\u{feff}", " \t\r\n#\n# farm 7 2010 1"] {
        let Entered { book, said, right } = enter(text.as_bytes());
        assert_eq!((book.len(), said.as_str(), right), (0, wanted, false));
    }
}

#[test]
fn the_4097th_record() {
    let soils = |count: usize| format!("farm 7 2010 1\n{}close\n", "soil 1\n".repeat(count));
    let wanted = "closed: 4096 written, 0 refused, 0 not read, 0 without heading, 0 unusual\n";
    assert_eq!(said(&soils(4_094)), wanted);
    let wanted = "line 4097: refused 5: the book has 4096 records, and no more go in\n\
        not closed: 4096 written, 1 refused, 0 not read, 0 without heading, 0 unusual\n";
    assert_eq!(said(&soils(4_095)), wanted);
    let wanted = "line 4097: refused 5: the book has 4096 records, and no more go in\n\
        line 4098: close withheld: line 4097 failed, and a book with a failed line is not closed\n\
        not closed: 4096 written, 1 refused, 0 not read, 0 without heading, 0 unusual\n";
    assert_eq!(said(&soils(4_096)), wanted);
}

#[test]
fn twenty_messages_and_a_count() {
    let failing = |count: usize| format!("{MILKING}{}close\n", "soil\n".repeat(count));
    let shown = |count: usize| messages(&failing(count)).lines().count();
    assert_eq!((shown(18), shown(19), shown(20), shown(50)), (19, 20, 20, 20));
    assert!(!said(&failing(19)).contains(" more\n"));
    assert!(said(&failing(20)).contains("\nand 1 more\n"));
    let end = "group 12 milking, 40 head: no days\nand 31 more\n\
        not closed: 2 written, 50 refused, 0 not read, 0 without heading, 0 unusual\n";
    assert!(said(&failing(50)).ends_with(end));
}

/// A run is one message, an early close another; unusual values and groups are none.
#[test]
fn what_is_a_message() {
    let cow = "enteric 1 1 1\n";
    let run = format!("{MILKING}headng\n{}soil\n{}", cow.repeat(30), "soil\n".repeat(17));
    assert!(!said(&run).contains(" more\n"), "{}", said(&run));
    assert!(said(&(run + "soil\n")).contains("\nand 1 more\n"));
    let early = format!("{MILKING}{}close\n{}", cow.repeat(30), "soil\n".repeat(19));
    assert!(!said(&early).contains(" more\n"));
    assert!(said(&early).contains("\nand 40 more unusual\n"));
    assert!(said(&(early + "soil\n")).contains("\nand 1 more\nand 40 more unusual\nnot closed: "));
}

/// The open run, the last group, both counts, that there is no close, and the verdict.
#[test]
fn the_end_of_a_text_in_its_order() {
    let text = format!(
        "{MILKING}{}{}headng\nenteric 31 300 6.5\n# the end\n",
        "enteric 1 1 1\n".repeat(11),
        "soil\n".repeat(18),
    );
    // 100 x 100 x 40 / 55650 is 7.19 for each of eleven days.
    let wanted = "line 31: refused 4: soil takes 1 value, and 0 are here; expected area\n\
        line 32: not read: \"headng\" is no kind of record; expected farm, heading, enteric, cattle, pig, energy, soil, close, tillage, grazing \
        or its number\n\
        line 33: without heading: line 32, which may have been a heading, was not read\n\
        group 12 milking, 40 head: enteric 11 days of 365; CH4 0.077 kg, 0.0 kg a head\n\
        and 2 more unusual\n\
        no close: the text ends without one\n\
        not closed: 13 written, 18 refused, 1 not read, 1 without heading, 22 unusual\n";
    assert!(said(&text).ends_with(wanted), "{}", said(&text));
    let text = text.replace("headng", "soil\nheadng");
    let wanted = "group 12 milking, 40 head: enteric 11 days of 365; CH4 0.077 kg, 0.0 kg a head\n\
        and 1 more\n\
        and 2 more unusual\n\
        no close: the text ends without one\n\
        not closed: 13 written, 19 refused, 1 not read, 1 without heading, 22 unusual\n";
    assert!(said(&text).ends_with(wanted), "{}", said(&text));
}

/// The lines of a text that have a word, or are too long.
fn lines_with_words(text: &[u8]) -> usize {
    let text = text.strip_prefix(b"\xef\xbb\xbf").unwrap_or(text);
    let has_word = |line: &&[u8]| {
        let front = line.split(|&byte| byte == b'#').next().unwrap();
        front.len() > 1_023 || front.iter().any(|byte| !b" \t\r".contains(byte))
    };
    text.split(|&byte| byte == b'\n').filter(has_word).count()
}

/// Whatever the text, the reader accepts what was written, to the last byte, and the verdict says what it is; a book that is closed has all lines.
#[test]
fn what_is_written_is_a_beginning_of_a_book() {
    let mut right = 0;
    for index in 0..1_000 {
        let typed = text(3, index);
        let Entered { book, said, right: closed } = enter(&typed);
        let state = after(&State::default(), &book);
        let verdict = said.lines().last().expect("there is always a verdict").to_string();
        assert_eq!(state.held_count, 0);
        assert_eq!(verdict.starts_with("closed: "), state.stage == CLOSED);
        assert_eq!(closed, state.stage == CLOSED);
        assert!(book.is_empty() || [OPEN, CLOSED].contains(&state.stage));
        assert!(verdict.contains(&format!("closed: {} written, ", state.records)));
        if closed {
            assert!(verdict.contains(" written, 0 refused, 0 not read, 0 without heading, "));
            assert_eq!(lines_with_words(&typed), usize::from(state.records));
        }
        assert!(said.is_ascii());
        let shown = |unusual: bool| {
            let wanted =
                |line: &&str| line.starts_with("line") && line.contains(": unusual: ") == unusual;
            said.lines().filter(wanted).count()
        };
        assert!(shown(true) <= 20 && shown(false) <= 20);
        right += u64::from(closed);
    }
    assert!((300..600).contains(&right), "{right} of 1000 texts are right");
}

/// The texts by chance come to every refusal of a typed line, and to every other remark.
#[test]
fn texts_by_chance_come_to_everything() {
    let said: String = (0..1_000).map(|index| enter(&text(5, index)).said).collect();
    for code in [3, 4, 5, 6, 8, 9, 11, 12] {
        assert!(said.contains(&format!(": refused {code}: ")), "{code}");
    }
    for kind in 1..=10 {
        for f in spoken_of(kind, 0).iter().chain(spoken_of(kind, 4)) {
            let not_read = format!("not read: {}, {}: \"", kind_name(kind), f.name);
            assert!(said.contains(&not_read), "{kind} {}", f.name);
            // A farm number, a count, and an area beyond their ranges too.
            assert!(said.contains(&format!(": {}: \"", f.name)), "{kind} {}", f.name);
        }
        assert!(said.contains(&format!("refused 4: {} takes ", kind_name(kind))), "{kind}");
    }
    for words in [
        "too long",
        "has too many decimals: at most 5; ",
        "is no number: use a point; ",
        "is no number; ",
        "is no whole number; ",
        "refused 10: the three shares",
        "refused 10: the volatilised",
        "refused 10: fraction: ",
        ", and 1 is here; ",
        "close too early: ",
        "close withheld: ",
        ": without heading: the heading in line ",
        ", which may have been a heading, was not read\n",
        ", which may have been a heading, was refused\n",
        "\nlines ",
        "\nand 1",
        " more unusual\n",
        "no close: ",
        "no days",
        " days\n",
        " days; CH4 ",
        " of 366",
        " of 365",
        " kg a head; N2O ",
        "\nclosed: ",
        "\"?",
    ] {
        assert!(said.contains(words), "{words}");
    }
}
