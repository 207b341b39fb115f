//! Headings that are lost, and the runs of lines without one.

use super::typed::{messages, remarks, said, MILKING};

/// What is said of a run.
fn run(lines: &str, why: &str) -> String {
    format!("{lines}: without heading: {why}\n")
}

#[test]
fn details_do_not_stand_under_a_lost_heading() {
    let long = format!("soil 1 {}", " 1".repeat(600));
    let heading = "the heading in line 3 was not written";
    let not_read = "line 3, which may have been a heading, was not read";
    let refused = "line 3, which may have been a heading, was refused";
    for (losing, why) in [
        ("heading 13 x 14", heading),
        ("heading 13 dry many", heading),
        ("heading 13 5 14", heading),
        ("heading 12 dry 14", heading),
        ("heading 13 dry", heading),
        ("2 13 dry 14 1", heading),
        ("headng 13 2 14", not_read),
        ("-2", not_read),
        (&long, not_read),
        ("11 1", refused),
        ("0", refused),
        ("77 x", refused),
    ] {
        let text = format!(
            "{losing}\nenteric 1 200 6\n4 1\npig 1\ngrazing 1 1 1 1\nsoil 5\nheading 13 dry 14\nenteric 1 200 6\n"
        );
        let told = remarks(&text);
        assert_eq!(told.lines().count(), 2, "{told}");
        assert!(told.ends_with(&run("lines 4 to 7", why)), "{losing}: {told}");
    }
}

#[test]
fn other_lines_that_fail_lose_no_heading() {
    for keeping in [
        "enteric 1 1",
        "enteric 1 x 1",
        "soil x",
        "soil",
        "farm 7 2010 1",
        "close x",
        "close 9",
        "energy 9 1 1",
        "tillage 9 1 1",
        "9 x",
        "grazing 9 1 1 1",
        "10 x",
        "pig 1",
        "4 x",
    ] {
        let told = remarks(&format!("{keeping}\nenteric 1 200 6\n"));
        assert_eq!(told.lines().count(), 1, "{keeping}: {told}");
    }
    // An early close is none of them either.
    assert_eq!(remarks("close\nenteric 1 200 6\n").lines().count(), 1);
}

#[test]
fn a_run_is_one_message() {
    let why = "the heading in line 3 was not written";
    let lost = "heading 13 dri 14\n";
    let told = |lines: &str| {
        let all = remarks(&format!("{lost}{lines}"));
        all.split_once('\n').expect("the lost heading is told").1.to_string()
    };
    assert_eq!(told(""), "");
    assert_eq!(told("enteric 1 1 1\n"), run("line 4", why));
    assert_eq!(told("enteric 1 1 1\nenteric 1 1 1\n"), run("lines 4 to 5", why));
    // Blank lines and comments do not break it, and are not counted to it.
    assert_eq!(told("\nenteric 1 1 1\n # x\n\n \t\r\ncattle\n\n# y\n"), run("lines 5 to 9", why));
    assert_eq!(told("enteric 1 1 1\n#\n\n"), run("line 4", why));
    // Any other line with a word does, written or not.
    for (breaking, words) in [
        ("soil 5", String::new()),
        ("energy 1 1 1", String::new()),
        ("tillage 1 1 1 1 1", String::new()),
        ("soil", "line 5: refused 4: soil takes 1 value, and 0 are here; expected area\n".to_string()),
        (
            "enteric 1 y 1",
            "line 5: not read: enteric, GE: \"y\" is no number; expected 0 to 1000.00 MJ per head and day\n".to_string(),
        ),
        (
            "close",
            "line 5: close withheld: line 3 failed, and a book with a failed line is not closed\n".to_string(),
        ),
    ] {
        let text = format!("enteric 1 1 1\n{breaking}\npig 1\n\ngrazing\n");
        let wanted = run("line 4", why) + &words + &run("lines 6 to 8", why);
        assert_eq!(told(&text), wanted, "{breaking}");
    }
}

#[test]
fn the_last_line_that_lost_the_heading_is_named() {
    let told =
        remarks("headng\nenteric 1 1 1\n\n77\nenteric 1 1 1\nheading 13 5 1\nenteric 1 1 1\n");
    let mut lines = told.lines().filter(|line| line.contains("without heading"));
    let wanted = [
        "line 4: without heading: line 3, which may have been a heading, was not read",
        "line 7: without heading: line 6, which may have been a heading, was refused",
        "line 9: without heading: the heading in line 8 was not written",
    ];
    assert!(wanted.iter().all(|&line| lines.next() == Some(line)), "{told}");
}

/// The run comes before whatever is said of the line that ends it: here the group that a heading ends.
#[test]
fn the_message_comes_when_the_run_ends() {
    let text = format!(
        "{MILKING}heading 12 dry 9\nenteric 1 1 1\nenteric 2 2 2\n# x\nheading 13 dry 9\nclose\n"
    );
    let wanted = "line 3: refused 8: the group number must be above that of the heading before\n\
        lines 4 to 5: without heading: the heading in line 3 was not written\n\
        group 12 milking, 40 head: no days\n\
        line 8: close withheld: line 3 failed, and a book with a failed line is not closed\n\
        group 13 dry, 9 head: no days\n\
        not closed: 3 written, 1 refused, 0 not read, 2 without heading, 0 unusual\n";
    assert_eq!(said(&text), wanted);
    let open = format!("{MILKING}99\nenteric 1 1 1\npig 1\n\n");
    let wanted = "line 3: refused 3: no such kind of record: kinds are 1 to 10\n\
        lines 4 to 5: without heading: line 3, which may have been a heading, was refused\n\
        group 12 milking, 40 head: no days\n\
        no close: the text ends without one\n\
        not closed: 2 written, 1 refused, 0 not read, 2 without heading, 0 unusual\n";
    assert_eq!(said(&open), wanted);
}

#[test]
fn a_line_without_heading_is_not_judged_but_is_read() {
    let told = remarks("headng\nenteric 0 1\nenteric 400 9999 99 hay\nenteric 0 y\n");
    let wanted = "lines 4 to 5: without heading: line 3, which may have been a heading, was not read\n\
        line 6: not read: enteric, GE: \"y\" is no number; expected 0 to 1000.00 MJ per head and day\n";
    assert!(told.ends_with(wanted), "{told}");
}

/// Also where there is no farm record, and behind an early close.
#[test]
fn wherever_the_heading_is_lost() {
    let told = messages("headng\nenteric 1 1 1\n");
    assert!(told.ends_with(
        "line 2: without heading: line 1, which may have been a heading, was not read\n"
    ));
    let told = messages("enteric 1 1 1\n");
    assert!(told.starts_with("line 1: refused 6: "));
    let told = remarks("close\nheading 12 dry 1\nenteric 1 1 1\nclose\n");
    let wanted = "line 3: close too early: line 4 comes after it\n\
        line 4: refused 8: the group number must be above that of the heading before\n\
        line 5: without heading: the heading in line 4 was not written\n\
        line 6: close withheld: line 3 failed, and a book with a failed line is not closed\n";
    assert_eq!(told, wanted);
}
