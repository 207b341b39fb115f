//! The table of many books: the sample's row by hand, books that are not closed, and sums up to the last that eight bytes hold.

use crate::makers::plain::sample;
use crate::makers::sets::edges;
use crate::model::table::{misused, table};

const HEADER: &str = "file,farm,year,state,records,ch4,n2o,co2,excreted,land,grazing,co2e\r\n";

fn rows(files: &[(&str, Option<Vec<u8>>)]) -> (Vec<String>, bool) {
    let (text, right) = table(files);
    let text = text.strip_prefix(HEADER).unwrap().strip_suffix("\r\n").unwrap();
    (text.split("\r\n").map(str::to_string).collect(), right)
}

#[test]
fn the_sample_twice() {
    let files = [("a b.book", Some(sample())), ("x", Some([sample(), vec![1]].concat()))];
    let (rows, right) = rows(&files);
    let wanted = [
        "a b.book,7,2010,closed,6,826954,0,875000,0,0,0,18241034",
        "x,7,2010,closed,6,826954,0,875000,0,0,0,18241034",
        "all,,,,2,1653908,0,1750000,0,0,0,36482068",
    ];
    assert_eq!((rows.as_slice(), right), (&wanted.map(str::to_string)[..], true));
}

#[test]
fn books_that_are_not_closed_have_no_figures() {
    let refused = [&sample()[..32], &[0, 4, 1, 99, 0, 0]].concat();
    let files = [
        ("none", None),
        ("empty", Some(Vec::new())),
        ("cut", Some(sample()[..40].to_vec())),
        ("wrong", Some(refused)),
        ("text", Some(b"farm 7 2010 1\n".to_vec())),
    ];
    let (rows, right) = rows(&files);
    let wanted = [
        "none,,,unreadable,,,,,,,,",
        "empty,,,unfinished,0,,,,,,,",
        "cut,7,2010,unfinished,3,,,,,,,",
        "wrong,7,2010,refused 3,3,,,,,,,",
        "text,,,refused 1,0,,,,,,,",
        "all,,,,0,0,0,0,0,0,0,0",
    ];
    assert_eq!((rows.as_slice(), right), (&wanted.map(str::to_string)[..], false));
}

/// 225 books of 4,094 records of 10^13 g are 9.2115 × 10^18 g, and eight bytes hold 9,223,372,036,854,775,807 with a sign; what takes up comes last.
#[test]
fn sums_are_of_whole_numbers() {
    let books = edges();
    let book = |name: &'static str| {
        let (_, bytes) = books.iter().find(|(n, _)| *n == name).unwrap();
        (name, Some(bytes.clone()))
    };
    let mut files = vec![book("energy"); 225];
    let last = |files: &[(&str, Option<Vec<u8>>)]| rows(files).0.pop().unwrap();
    files.push(book("rest"));
    assert_eq!(last(&files), "all,,,,226,0,0,,0,0,0,");
    files.push(book("uptake"));
    let whole = last(&files);
    assert!(whole.starts_with("all,,,,227,0,0,92233") && whole.contains(",0,0,0,92233"));
    assert!(last(&files[226..]).starts_with("all,,,,1,0,0,-"));
}

/// CO2e alone: 2,047 × 1,000 × 26,307,277.628 kg a book, of which 171 go into eight bytes.
#[test]
fn co2e_alone_does_not_fit() {
    let (_, hugest) = edges().remove(0);
    let row = rows(&[("hugest", Some(hugest))]).0.remove(0);
    let columns: Vec<i128> = row.split(',').skip(5).map(|c| c.parse().unwrap()).collect();
    assert_eq!(columns, [53_850_997_304_516_i128, 0, 0, 0, 0, 0, 53_850_997_304_516_000]);
    assert!(columns[6] * 171 < i64::MAX.into() && columns[6] * 172 > i64::MAX.into());
}

#[test]
fn names_that_no_row_can_have() {
    assert!(
        misused(&[])
            && misused(&["a", "b,c"])
            && misused(&["\""])
            && misused(&["a\nb", "c"])
            && misused(&["a\r"])
    );
    assert!(!misused(&["a b'c;d", "é", ".."]));
}
