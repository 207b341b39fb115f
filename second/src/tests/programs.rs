//! What the lister and retype print and say of the sample, of nothing, of a typed text, and of a book with bytes behind it.

use crate::makers::books::closed_run;
use crate::makers::dice::Dice;
use crate::makers::plain::sample;
use crate::model::programs::{listed, retyped};
use crate::model::state::State;
use crate::model::typed::enter;

const SAMPLE_TYPED: &str = "farm 7 2010 1
heading 12 milking 40
enteric 31 300.00 6.50
energy 1 12.5 70000
enteric 28 300.00 6.50
close 5
";

#[test]
fn the_sample_is_typed_as_its_records_are() {
    let told = retyped(&sample());
    assert_eq!((told.printed.as_str(), told.said.as_str(), told.right), (SAMPLE_TYPED, "", true));
    let told = listed(&sample());
    assert!(told.printed.ends_with("closed\n") && told.said.is_empty() && told.right);
}

#[test]
fn bytes_behind_the_close_are_told_by_retype_alone() {
    let book = [sample(), vec![0]].concat();
    let told = retyped(&book);
    assert_eq!((told.said.as_str(), told.right), ("bytes stand after the close\n", false));
    assert!(listed(&book).right);
}

#[test]
fn a_typed_text_is_refused_with_a_hint() {
    let told = listed(SAMPLE_TYPED.as_bytes());
    assert_eq!(told.printed, "refused 1 0 0\n");
    assert!(told.said.ends_with("bin/writer makes a book of it\n") && !told.right);
    let told = retyped(SAMPLE_TYPED.as_bytes());
    let refused = "refused 1 0 0: a length that no record has: it is 4 to 26\n";
    assert_eq!(
        told.said,
        format!("{refused}this looks like a typed book: bin/writer makes a book of it\n")
    );
}

#[test]
fn no_bytes_and_half_a_record_are_unfinished() {
    for book in [&sample()[..0], &sample()[..1], &sample()[..15]] {
        assert!(retyped(book).said.starts_with("unfinished\n"));
        assert_eq!(listed(book).printed, "unfinished\n");
    }
    assert_eq!(
        retyped(&[]).said,
        "unfinished\nthis is empty: a book begins with its farm record\n"
    );
    assert_eq!(listed(&[]).said, "this is empty: a book begins with its farm record\n");
    assert_eq!((listed(b"f").said.as_str(), listed(&sample()[..1]).said.as_str()), ("", ""));
}

#[test]
fn a_sheet_is_no_typed_text() {
    for sheet in [&b"kind,group,ch4"[..], b"\xef\xbb\xbfkind,group"] {
        assert!(listed(sheet).said.ends_with("\nthis looks like a sheet: bin/unsheet reads it\n"));
    }
    for text in [&b"kind,grouP"[..], b"kind,grou", b"\xef\xbb\xbf kind,group", b"\xefkind,group"] {
        assert!(listed(text).said.ends_with("bin/writer makes a book of it\n"));
    }
}

/// What retype prints, typed again, gives the same bytes.
#[test]
fn books_typed_again_are_the_same() {
    let mut dice = Dice::of_case(16, 1);
    for _ in 0..500 {
        let count = dice.between(1, 30);
        let book = closed_run(&mut dice, &State::default(), count);
        let entered = enter(retyped(&book).printed.as_bytes());
        assert_eq!((entered.book, entered.right), (book, true));
    }
}
