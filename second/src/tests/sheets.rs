//! Document 02's W13, sentence by sentence, and that the makers of sheets make what they say.

use crate::makers::rows::{lines, sheet};
use crate::model::sheets::{sheeted, unsheeted, HEADER};
use std::collections::BTreeSet;

/// The last line, which is for machines, of what is said of a text.
fn answer(text: &[u8]) -> String {
    unsheeted(text).1.lines().last().unwrap_or_default().to_string()
}

/// The same of the header and these rows.
fn said(rows: &str) -> String {
    answer(format!("{HEADER}{rows}").as_bytes())
}

#[test]
fn a_line_to_text_to_a_line() {
    let rows = "3,12,434501,0,-1,0,0,0,\r\n8,65535,18446744073709551615,0,-9223372036854775808,0,0,0,9223372036854775807\r\n";
    let text = format!("{HEADER}{rows}");
    let (bytes, words, right) = unsheeted(text.as_bytes());
    assert_eq!((bytes.len(), words.as_str(), right), (54 + 62, "2 lines\n", true));
    assert_eq!(sheeted(&bytes).0, text.into_bytes());
    let none = "the bytes are no run of whole lines, as the herd desk gives them: for a book use bin/sheet\nrefused 23\n";
    assert_eq!(sheeted(&bytes[..53]).1, none);
    assert_eq!(sheeted(&[]), (HEADER.as_bytes().to_vec(), "0 lines\n".to_string(), true));
}

#[test]
fn text_that_is_not_of_the_form() {
    for co2 in ["-0", "00", "+1", "01", "-01", "", "-", " 1", "\"1\"", "1.0"] {
        assert_eq!(said(&format!("3,7,0,0,{co2},0,0,0,\r\n")), "refused 20 row 2", "{co2}");
    }
    for rows in [
        "\r\n",
        "3,7,0,0,0,0,0,0,\n",
        "3,7,0,0,0,0,0,0,",
        "3,7,-1,0,0,0,0,0,\r\n",
        "3,7,0,0,0,0,0,0,0\r\n",
        "8,0,0,0,0,0,0,0,\r\n",
    ] {
        assert_eq!(said(rows), "refused 20 row 2", "{rows}");
    }
    assert_eq!(answer(b""), "refused 20 row 1");
    assert_eq!(said("11,0,0,0,0,0,0,0,5\r\n"), "refused 20 row 2");
}

#[test]
fn numbers_outside_their_fields() {
    for rows in [
        "2,7,0,0,0,0,0,0,\r\n",
        "11,7,0,0,0,0,0,0,\r\n",
        "3,65536,0,0,0,0,0,0,\r\n",
        "3,7,18446744073709551616,0,0,0,0,0,\r\n",
    ] {
        assert_eq!(said(rows), "refused 21 row 2", "{rows}");
    }
    assert_eq!(said("3,7,0,0,9223372036854775808,0,0,0,\r\n"), "refused 21 row 2");
    assert_eq!(said("3,7,0,0,-9223372036854775808,0,0,0,\r\n"), "1 lines");
    let both = "3,65536,0,0,-0,0,0,0,\r\n";
    assert_eq!(said(both), "refused 20 row 2");
    assert_eq!(said(&format!("3,65536,0,0,0,0,0,0,\r\n{both}")), "refused 21 row 2");
}

#[test]
fn a_sentence_stands_before_a_refusal() {
    let form = "row 1: the first row has to be kind,group,ch4,n2o,co2,excreted,land,grazing,co2e\nrefused 20 row 1\n";
    assert_eq!(unsheeted(b"").1, form);
    let field = "row 2: a number is outside its field: kind 3 to 10 or 16, group to 65535, \
        a figure to 18446744073709551615, co2 and co2e -9223372036854775808 to 9223372036854775807\n\
        refused 21 row 2\n";
    assert_eq!(unsheeted(format!("{HEADER}3,65536,0,0,0,0,0,0,\r\n").as_bytes()).1, field);
}

/// The words of the fault of a first row, after `row 1: `.
fn of_header(text: &str) -> String {
    let said = unsheeted(text.as_bytes()).1;
    said.strip_prefix("row 1: ").unwrap().strip_suffix("\nrefused 20 row 1\n").unwrap().to_string()
}

#[test]
fn faults_of_the_first_row() {
    let names = HEADER.trim_end();
    assert!(of_header(&format!("\u{feff}{HEADER}"))
        .starts_with("a byte order mark stands before the sheet: "));
    assert!(of_header(&format!("\u{feff}\"{HEADER}")).starts_with("a byte order mark"));
    assert!(of_header("\"kind\";\"group\"\r\n")
        .starts_with("cells have no quotes, and here are some: "));
    assert!(of_header(&names.replace(',', ";"))
        .starts_with("cells are separated by commas, and here are semicolons: "));
    assert!(of_header(&format!("{names}\n")).starts_with("the row ends in a line feed alone: "));
    assert!(of_header(names).starts_with("the last row has no line end: "));
    for other in [format!("{names}\r"), "kind\n;".to_string(), format!("{names} \n")] {
        assert_eq!(of_header(&other), format!("the first row has to be {names}"));
    }
}

/// The words of the fault of a row after a right one, from its column on.
fn of_row(row: &str) -> String {
    let said = unsheeted(format!("{HEADER}3,12,434501,0,0,0,0,0,\r\n{row}").as_bytes()).1;
    said.strip_prefix("row 3, column ")
        .unwrap()
        .strip_suffix("\nrefused 20 row 3\n")
        .unwrap()
        .to_string()
}

#[test]
fn faults_of_a_column() {
    let number =
        "expected a whole number without leading zeros (co2 may have a minus sign), then a comma";
    for (row, cell) in [
        ("3,12,0434501,0,0,0,0,0,\r\n", "ch4: \"0434501\""),
        ("3,12,1,0,-0,0,0,0,\r\n", "co2: \"-0\""),
        ("3,12,1,-7,0,0,0,0,\r\n", "n2o: \"-7\""),
        ("3,12\r\n", "group: \"12\""),
        ("\r\n", "kind: \"\""),
        ("3,x y_abcdefghijklmnopqrstuvwxyz,", "group: \"x?y_abcdefghijklmnopqrst\""),
    ] {
        assert_eq!(of_row(row), format!("{cell}: {number}"));
    }
    assert!(of_row("3;12;1\r\n").starts_with("kind: \"3;12;1\": cells are separated by commas"));
    assert!(of_row("3,\"12;\",1").starts_with("group: \"\"12;\"\": cells have no quotes"));
}

#[test]
fn faults_of_the_last_column() {
    let total = "expected a whole number without leading zeros, perhaps with a minus sign, then the end of the row";
    let nothing = "expected nothing before the end of the row: only a row of kind 8 has a co2e";
    let no_end = "the last row has no line end: each row ends in CRLF, the last one too";
    for (row, cell, words) in [
        ("8,0,0,0,0,0,0,0,\r\n", "", total),
        ("8,0,0,0,0,0,0,0,-0\n", "-0", total),
        ("8,0,0,0,0,0,0,0,5,\r\n", "5", total),
        ("3,0,0,0,0,0,0,0,5\r\n", "5", nothing),
        ("264,0,0,0,0,0,0,0,5\n", "5", nothing),
        ("3,0,0,0,0,0,0,0,\r", "", nothing),
        ("3,0,0,0,0,0,0,0,", "", no_end),
        ("3,0,0,0,0,0,0,0,5", "5", nothing),
        ("8,0,0,0,0,0,0,0,-5", "-5", no_end),
        ("8,0,0,0,0,0,0,0,", "", total),
        ("8,0,0,0,0,0,0,0,-0", "-0", total),
    ] {
        assert_eq!(of_row(row), format!("co2e: \"{cell}\": {words}"), "{row:?}");
    }
    assert!(
        of_row("3,0,0,0,0,0,0,0,\n").starts_with("co2e: \"\": the row ends in a line feed alone: ")
    );
    assert!(of_row("8,0,0,0,0,0,0,0,-5\n")
        .starts_with("co2e: \"-5\": the row ends in a line feed alone: "));
    assert!(
        of_row("8,0,0,0,0,0,0,0,5;\n").starts_with("co2e: \"5;\": cells are separated by commas")
    );
}

#[test]
fn the_makers_meet_every_answer() {
    let answers: BTreeSet<String> = (0..400)
        .flat_map(|index| [unsheeted(&sheet(1, index)).1, sheeted(&lines(1, index)).1])
        .filter_map(|said| said.lines().last().map(str::to_string))
        .filter(|said| said.starts_with("refused"))
        .map(|said| said.split(' ').take(2).collect::<Vec<_>>().join(" "))
        .collect();
    assert_eq!(answers.into_iter().collect::<Vec<_>>(), ["refused 20", "refused 21", "refused 23"]);
}

#[test]
fn a_sheet_that_was_cut_to_nothing_is_not_damaged_again() {
    assert!(sheet(1_478_361_860, 199).is_empty());
}
