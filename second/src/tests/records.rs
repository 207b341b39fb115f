//! The table of records: the sample's rows by hand, the subtotals between groups, and what is said of books that are not closed.

use crate::makers::farms::farm;
use crate::makers::plain::{sample, several_groups};
use crate::model::lister::list;
use crate::model::programs::retyped;
use crate::model::records::records;

const SAMPLE: &str = "record,first,last,name,group,typed,ch4,n2o,co2,excreted,land,grazing,co2e\r
0,0,10,farm,,farm 7 2010 1,,,,,,,\r
1,11,19,heading,12,heading 12 milking 40,,,,,,,\r
2,20,31,enteric,12,enteric 31 300.00 6.50,434501,0,0,0,0,0,\r
3,32,44,energy,,energy 1 12.5 70000,0,0,875000,0,0,0,\r
4,45,56,enteric,12,enteric 28 300.00 6.50,392453,0,0,0,0,0,\r
,,,subtotal,12,,826954,0,0,0,0,0,\r
5,57,62,close,,close 5,826954,0,875000,0,0,0,18241034\r
";

#[test]
fn the_sample_by_hand() {
    let made = records(&sample());
    assert_eq!((made.printed.as_str(), made.said.as_str(), made.right), (SAMPLE, "closed\n", true));
    assert_eq!(records(&[sample(), vec![0]].concat()).printed, SAMPLE);
}

#[test]
fn what_ends_early_has_the_rows_before_and_the_last_word() {
    let made = records(&sample()[..50]);
    assert_eq!(made.printed, SAMPLE[..SAMPLE.find("4,45").unwrap()]);
    assert_eq!((made.said.as_str(), made.right), ("unfinished\n", false));
    let made = records(&[]);
    assert_eq!(made.printed.matches("\r\n").count(), 1);
    assert_eq!(made.said, "this is empty: a book begins with its farm record\nunfinished\n");
    let refused = [&sample()[..32], &[0, 4, 1, 99, 0, 0]].concat();
    assert!(records(&refused).said.ends_with("bin/why tells more\nrefused 3 3 0\n"));
}

/// A subtotal stands before the heading that gives it, with the group that it is of.
#[test]
fn subtotals_between_groups() {
    let printed = records(&several_groups()).printed;
    let rows: Vec<&str> = printed.split("\r\n").collect();
    let at = rows.iter().position(|row| row.contains(",heading 13 dry 40")).unwrap();
    assert!(rows[at - 1].starts_with(",,,subtotal,12,,"));
    assert!(rows[at + 1].starts_with(",,,subtotal,13,,0,0,0,0,0,0,"));
}

/// The rows have retype's lines and the lister's figures, in their order.
#[test]
fn typed_lines_and_figures_are_those_of_retype_and_of_the_lister() {
    for index in 0..200 {
        let book = farm(19, index);
        let printed = records(&book).printed;
        let rows: Vec<Vec<&str>> =
            printed.lines().skip(1).map(|r| r.split(',').collect()).collect();
        assert!(rows.iter().all(|row| row.len() == 13));
        let typed: String =
            rows.iter().filter(|r| !r[0].is_empty()).map(|r| r[5].to_string() + "\n").collect();
        assert_eq!(typed, retyped(&book).printed);
        let figures = |row: &&Vec<&str>| row[6..].join(" ").trim_end().to_string();
        let got: Vec<String> =
            rows.iter().filter(|r| !r[6].is_empty()).map(|r| figures(&r)).collect();
        let listed = list(&book);
        let wanted = listed.lines().filter(|l| l.starts_with(|c: char| c.is_ascii_digit()));
        let wanted: Vec<String> =
            wanted.map(|l| l.splitn(3, ' ').nth(2).unwrap().to_string()).collect();
        assert_eq!(got, wanted);
    }
}
