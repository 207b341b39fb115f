//! The table of kinds, and the text of trial cases.

use crate::makers::cases;
use crate::makers::plain::plain_rows;
use crate::makers::trial::Case;
use crate::model::figures::Subtotal;
use crate::model::kind;
use crate::model::record::{fields_with, length_of};
use crate::model::warming::factors;

#[test]
fn lengths_of_the_table() {
    let lengths: Vec<u16> = kind::ALL.map(|kind| length_of(kind, 1)).collect();
    assert_eq!(lengths, [9, 7, 10, 20, 26, 11, 6, 4, 11, 8]);
    assert_eq!(length_of(kind::FARM, 2), 12);
}

#[test]
fn each_field_is_tested_at_its_ends() {
    for (kind, plain) in plain_rows() {
        for f in fields_with(kind, plain.len()) {
            assert!(f.low <= f.high && u64::from(f.high) < 1 << (8 * f.bytes));
        }
    }
}

#[test]
fn cases_survive_their_text() {
    for index in 0..2_000 {
        let text = cases::fresh(5, index).text();
        assert_eq!(Case::parse(&text).unwrap().text(), text);
    }
    let no_state = format!("B{} {} - 0", " 0".repeat(25), "00".repeat(27));
    assert_eq!(Case::parse(&no_state).unwrap().text(), no_state + "\n");
    let ranks: Vec<String> = (0..25).map(|i| format!("{i:x}")).collect();
    let ranked = format!("B {} {} - 0", ranks.join(" "), "00".repeat(27));
    match Case::parse(&ranked) {
        Ok(Case::Book { state, .. }) => {
            assert_eq!((state.records, state.factors), (1, factors(2, 3)));
            assert_eq!((state.heading.days, state.heading.grazed), ([7, 8, 9], 10));
            assert_eq!(state.subtotal, Subtotal { ch4: 11, n2o: 12, excreted: 13, land: 14 });
            assert_eq!(state.sums.in_order(), [15, 16, 17, 18, 19, 20]);
            assert_eq!((state.refusal.code, state.held_count), (21, 24));
        }
        other => panic!("{other:?}"),
    }
    assert!(Case::parse("B 0").is_err() && Case::parse("S 1 2 3 4 4 5").is_err());
}
