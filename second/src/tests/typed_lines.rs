//! One line of a typed text: its bytes, its words and its numbers, and what is said of it.

use super::typed::{messages, record_typed, remarks, said, verdict};
use crate::makers::plain::{plain_rows, plain_values, sample};
use crate::model::fields::spoken_of;
use crate::model::record::{fields_with, record_of};
use crate::model::typed::enter;
use crate::model::words::{kind_name, shown, KINDS};

#[test]
fn the_sample_in_other_dresses() {
    let plain = include_str!("../../../samples/sample.txt");
    let dresses = [
        plain.to_uppercase(),
        plain.replace('\n', "\r\n"),
        plain.replace(' ', "\t"),
        plain.replace('\n', " \t\t \n"),
        plain.trim_end().to_string(),
        format!("\u{feff}{plain}"),
        plain.replace('#', &format!("#{}", "x".repeat(5_000))),
        plain.replace("enteric", "3").replace("close", "8 5").replace("heading", "0002"),
        plain.replace("300 6.5", "300.00 6.50").replace("milking", "1"),
        plain.replace("300 6.5", "0300.0 00000000000000000000006.5").replace("milking", "0001"),
    ];
    for text in dresses {
        let entered = enter(text.as_bytes());
        assert_eq!((entered.book, entered.right), (sample(), true), "{text}");
    }
}

#[test]
fn a_mark_is_skipped_once_and_in_the_first_line_only() {
    let no_kind = "\"???farm\" is no kind of record; expected farm, heading, enteric, cattle, pig, energy, soil, \
        close, tillage, grazing or its number";
    assert!(said("\u{feff}\u{feff}farm 7 2010 1")
        .starts_with(&format!("line 1: not read: {no_kind}\n")));
    assert!(said("\n\u{feff}farm 7 2010 1").starts_with(&format!("line 2: not read: {no_kind}\n")));
}

#[test]
fn lines_of_1023_and_1024_bytes() {
    let too_long = "line 3: not read: the line is too long: at most 1023 bytes before its #\n";
    let soil = |length: usize, rest: &str| format!("soil{}5{rest}\n", " ".repeat(length - 5));
    assert_eq!(remarks(&soil(1_023, "")), "");
    assert_eq!(remarks(&soil(1_023, "#")), "");
    assert_eq!(remarks(&soil(1_023, &format!("#{}", "5 ".repeat(900)))), "");
    assert_eq!(remarks(&soil(1_024, "")), too_long);
    assert_eq!(remarks(&soil(1_024, "#")), too_long);
    assert_eq!(remarks(&soil(1_023, "\r")), too_long);
    assert_eq!(remarks(&soil(3_000, "")), too_long);
    assert_eq!(remarks(&" ".repeat(1_023)), "");
    assert_eq!(remarks(&" ".repeat(1_024)), too_long);
    let marked = |length: usize| format!("\u{feff}farm{}7 2010 1", " ".repeat(length - 12));
    let counts = |written, not_read| {
        format!("not closed: {written} written, 0 refused, {not_read} not read, 0 without heading, 0 unusual")
    };
    assert_eq!(verdict(&marked(1_023)), counts(1, 0));
    assert_eq!(verdict(&marked(1_024)), counts(0, 1));
}

#[test]
fn every_field_has_its_decimals() {
    for (kind, plain) in plain_rows() {
        let (spoken, fields) =
            (spoken_of(kind.into(), plain.len()), fields_with(kind, plain.len()));
        assert_eq!(spoken.len(), fields.len());
        for (place, (f, field)) in spoken.iter().zip(fields).enumerate() {
            let expected = highest_expected(&f.expected());
            let scale = 10_u64.pow(f.decimals as u32);
            let high = u64::from(field.high);
            let with_point = format!("{}.{:02$}", high / scale, high % scale, f.decimals);
            assert_eq!(
                expected,
                if f.decimals == 0 { high.to_string() } else { with_point },
                "{kind} {place}"
            );
            assert!(!f.is_choice() || f.choices.len() as u64 == high, "{kind} {place}");
        }
    }
}

/// The number behind `to` or `or` in what is expected.
fn highest_expected(expected: &str) -> String {
    let behind = expected
        .split(" to ")
        .nth(1)
        .or(expected.split(" or ").nth(1))
        .expect("a range has two ends");
    behind.split(' ').next().expect("it is not empty").to_string()
}

/// Words behind the last field are counted and not read; those before are read first.
#[test]
fn words_are_read_as_far_as_there_are_fields() {
    for (line, words) in [
        ("enteric 31 300 6.5 hay", "refused 4: enteric takes 3 values, and 4 are here; expected days, GE, Ym"),
        ("enteric 31 x 6.5 hay", "not read: enteric, GE: \"x\" is no number; expected 0 to 1000.00 MJ per head and day"),
        ("enteric 31 x", "not read: enteric, GE: \"x\" is no number; expected 0 to 1000.00 MJ per head and day"),
        ("enteric 31", "refused 4: enteric takes 3 values, and 1 is here; expected days, GE, Ym"),
        ("enteric", "refused 4: enteric takes 3 values, and 0 are here; expected days, GE, Ym"),
        ("enteric 400 30000", "refused 4: enteric takes 3 values, and 2 are here; expected days, GE, Ym"),
        ("soil", "refused 4: soil takes 1 value, and 0 are here; expected area"),
        ("soil 5 ha", "refused 4: soil takes 1 value, and 2 are here; expected area"),
        ("soil y x", "not read: soil, area: \"y\" is no number; expected 0 to 100000.00 ha"),
        ("close 2 3", "refused 4: close takes 1 value, and 2 are here; expected records before it"),
        ("close 2 x", "refused 4: close takes 1 value, and 2 are here; expected records before it"),
        ("heading 13 dry", "refused 4: heading takes 3 values, and 2 are here; expected group, class, head"),
        ("energy 1 2 3 4", "refused 4: energy takes 3 values, and 4 are here; expected source, amount, factor"),
        ("cattle 31 20", "refused 4: cattle takes 9 values, and 2 are here; \
            expected days, feed, protein, milk, milk protein, gain, solid share, liquid share, pasture share"),
        ("pig 31", "refused 4: pig takes 12 values, and 1 is here; expected days, feed, VS excretion, VS factor, MCF, protein, N factor, \
            direct EF, volatilised part, volatilised EF, leached part, leached EF"),
        ("farm 7 2010 1 2 3", "refused 4: farm takes 3 or 4 values, and 5 are here; \
            expected farm number, year, warming set, or farm number, year, CH4 factor, N2O factor"),
        ("77", "refused 3: no such kind of record: kinds are 1 to 10"),
        ("77 1 2.5", "refused 3: no such kind of record: kinds are 1 to 10"),
        ("0 x y", "refused 3: no such kind of record: kinds are 1 to 10"),
    ] {
        assert_eq!(remarks(&format!("{line}\n")), format!("line 3: {words}\n"));
    }
    let many = format!("soil {}\n", "1 ".repeat(400));
    let wanted = "line 3: refused 4: soil takes 1 value, and 400 are here; expected area\n";
    assert_eq!(remarks(&many), wanted);
}

#[test]
fn words_are_shown_by_24_bytes() {
    assert_eq!(shown(b"exactly-24-bytes-of-word"), "exactly-24-bytes-of-word");
    assert_eq!(shown(b"exactly-24-bytes-of-words"), "exactly-24-bytes-of-word");
    assert_eq!(shown(b"\0\x1f !~\x7f\x80\xff"), "???!~???");
}

#[test]
fn each_refusal_has_its_words() {
    let cattle = |shares: &str, gain: u64| format!("cattle 1 0 0 0 0 {gain} {shares}\n");
    let cases = [
        ("11 1\n".to_string(), "3: no such kind of record: kinds are 1 to 10"),
        ("farm 7 2010 1\n".to_string(), "6: out of its place: the one farm record is first; \
             enteric, cattle and grazing need a milking, dry or heifer heading, pig a pig heading"),
        ("enteric 0 2 3\n".to_string(), "7 field 1: days: \"0\" is out of its range; expected 1 to 366"),
        ("enteric 367 2 3\n".to_string(), "7 field 1: days: \"367\" is out of its range; expected 1 to 366"),
        ("energy 9 2 3\n".to_string(), "7 field 1: source: \"9\" is out of its range; expected 1 to 8 (the documents give no names)"),
        ("heading 12 dry 1\n".to_string(), "8: the group number must be above that of the heading before"),
        (cattle("0 0 90", 0), "10: the three shares must make 100.00 per cent: together 90.00"),
        (cattle("0 0 99.99", 0), "10: the three shares must make 100.00 per cent: together 99.99"),
        (cattle("100 100 100", 0), "10: the three shares must make 100.00 per cent: together 300.00"),
        (cattle("0 0 0", 0), "10: the three shares must make 100.00 per cent: together 0.00"),
        (cattle("0 0 100", 1), "11: more nitrogen in milk and gain than in the feed"),
        ("close 3\n".to_string(), "12: the close counts other records than there are before it; left out, the count is filled in"),
    ];
    for (line, words) in cases {
        assert_eq!(remarks(&line), format!("line 3: refused {words}\n"));
    }
}

#[test]
fn sums_under_a_heading_are_told() {
    let days = "enteric 350 300 6.5\nsoil 1\nenteric 31 300 6.5\n";
    let wanted = "line 5: refused 9: days: 350 and 31 make 381, and 366 are the most\n";
    assert_eq!(remarks(days), wanted);
    let cattle = "cattle 366 0 0 0 0 0 0 0 100\nenteric 366 300 6.5\ncattle 1 0 0 0 0 0 0 0 90\n";
    let wanted = "line 5: refused 9: days: 366 and 1 make 367, and 366 are the most\n";
    assert_eq!(remarks(cattle), wanted);
    let grazing = "grazing ontario cows 600 60\ngrazing ontario cows 600 50\n";
    let wanted =
        "line 4: refused 10: fraction: 60.00 and 50.00 make 110.00, and 100.00 are the most\n";
    assert_eq!(remarks(grazing), wanted);
    let pig = |parts: &str| {
        let lines =
            format!("farm 7 2010 1\nheading 12 pig 40\npig 1 2 0.1 1 0.2 18 1 0.002 {parts}\n");
        messages(&lines)
    };
    let wanted = |sum: &str| {
        format!("line 3: refused 10: the volatilised and the leached part must make at most 1.000: together {sum}\n")
    };
    assert_eq!(pig("0.6 0.01 0.5 0"), wanted("1.100"));
    assert_eq!(pig("1 0.01 0.001 0"), wanted("1.001"));
    assert_eq!(pig("1 0.01 1 0"), wanted("2.000"));
    assert_eq!(pig("0.6 0.01 0.4 0"), "");
}

#[test]
fn names_in_capitals_or_not() {
    for (kind, name) in (1..).zip(KINDS) {
        assert_eq!(kind_name(kind), name);
        let plain = plain_values(kind as u8);
        let fields = spoken_of(kind, plain.len());
        let words: Vec<String> =
            fields.iter().zip(&plain).map(|(f, &value)| f.said(value.into())).collect();
        let class = if kind == 5 { 4 } else { 1 };
        let line = |first: &str| record_typed(class, &format!("{first} {}", words.join(" ")));
        let typed = line(name);
        assert_eq!(typed, line(&name.to_uppercase()));
        assert_eq!(typed, line(&format!("{}{}", name[..1].to_uppercase(), &name[1..])));
        assert_eq!(typed, line(&kind.to_string()));
        if kind >= 3 && kind != 8 {
            assert_eq!(typed, Some(record_of(kind as u8, &plain)));
        }
    }
}
