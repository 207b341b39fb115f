//! What is a number in a typed text, what it is worth, and why another word is none.

use super::typed::{record_typed, remarks};
use crate::model::record::record_of;
use crate::model::words::shown;

/// A number is in the unit that people say, times a hundred in the book.
#[test]
fn numbers_in_peoples_units() {
    for (word, value) in [
        ("340", 34_000),
        ("340.5", 34_050),
        ("340.50", 34_050),
        ("340.05", 34_005),
        ("0340", 34_000),
        ("0", 0),
        ("0.0", 0),
        ("0.01", 1),
        ("1000", 100_000),
        ("1000.00", 100_000),
        ("00000000000000000000000000000000000001000", 100_000),
    ] {
        let record = record_typed(1, &format!("enteric 1 {word} 6.5"));
        assert_eq!(record, Some(record_of(3, &[1, value, 650])), "{word}");
    }
    let wanted = |word: &str| {
        format!("line 3: refused 7 field 2: GE: \"{word}\" is out of its range; expected 0 to 1000.00 MJ per head and day\n")
    };
    for word in ["30000", "1000.01", "34000", "1001"] {
        assert_eq!(remarks(&format!("enteric 31 {word} 6.5\n")), wanted(word));
    }
    // A decimal of each field, and all of them.
    let pig = |words: &str| record_typed(4, &format!("pig 100 {words}"));
    let record = record_of(5, &[100, 200, 1_000, 1_000, 200, 1_800, 1_000, 200, 250, 1_000, 1, 1]);
    assert_eq!(pig("2 0.1 1 0.2 18 1 0.002 0.25 0.01 0.001 0.00001"), Some(record.clone()));
    assert_eq!(
        pig("2.00 0.1000 1.000 0.200 18.00 1.000 0.00200 0.250 0.01000 0.001 0.00001"),
        Some(record)
    );
    for (line, values) in
        [("energy 1 12 70000", [1, 120, 70_000]), ("energy 1 12.5 70000", [1, 125, 70_000])]
    {
        assert_eq!(record_typed(1, line), Some(record_of(6, &values)));
    }
    assert_eq!(record_typed(1, "soil 0.07"), Some(record_of(7, &[7])));
}

#[test]
fn what_is_no_number() {
    for (word, fault) in [
        (".5", "is no number"),
        ("5.", "is no number"),
        (".", "is no number"),
        ("1..2", "is no number"),
        ("1.2.3", "is no number"),
        ("-1", "is no number"),
        ("+1", "is no number"),
        ("1e2", "is no number"),
        ("1E-05", "is no number"),
        ("0x1", "is no number"),
        ("½", "is no number"),
        ("x", "is no number"),
        ("\0", "is no number"),
        ("1\u{b}", "is no number"),
        ("1.234", "has too many decimals: at most 2"),
        ("1.000", "has too many decimals: at most 2"),
        ("999999999999999999999999.0000", "has too many decimals: at most 2"),
        (".123", "is no number"),
        ("1.23x", "is no number"),
        ("6,5", "is no number: use a point"),
        ("6,55", "is no number: use a point"),
        ("6,555", "is no number"),
        ("6,", "is no number"),
        (",5", "is no number"),
        ("1,000.5", "is no number"),
        ("1.000,5", "is no number"),
        ("1,000,5", "is no number"),
        ("6,5x", "is no number"),
    ] {
        let seen = shown(word.as_bytes());
        let wanted = format!(
            "line 3: not read: enteric, Ym: \"{seen}\" {fault}; expected 0 to 20.00 per cent\n"
        );
        assert_eq!(remarks(&format!("enteric 1 300 {word}\n")), wanted);
    }
    for (line, words) in [
        ("enteric 31.0 300 6.5", "enteric, days: \"31.0\" is no whole number; expected 1 to 366"),
        ("enteric 31,0 300 6.5", "enteric, days: \"31,0\" is no whole number; expected 1 to 366"),
        ("energy 1 12.55 7", "energy, amount: \"12.55\" has too many decimals: at most 1; expected 0 to 1000000.0 units"),
        ("energy 1 12,5 7", "energy, amount: \"12,5\" is no number: use a point; expected 0 to 1000000.0 units"),
        ("energy 1 12,55 7", "energy, amount: \"12,55\" is no number; expected 0 to 1000000.0 units"),
        ("energy x 12 7", "energy, source: \"x\" is no whole number; expected 1 to 8 (the documents give no names)"),
        ("energy 1 12 7.0", "energy, factor: \"7.0\" is no whole number; expected 0 to 10000000 g CO2 per unit"),
        ("pig 1 2 0.12345", "pig, VS excretion: \"0.12345\" has too many decimals: at most 4; expected 0 to 0.5000"),
        ("pig 1 2 0 0 0 0 0 0.000001", "pig, direct EF: \"0.000001\" has too many decimals: at most 5; expected 0 to 0.10000"),
        ("close now", "close, records before it: \"now\" is no whole number; expected 0 to 65535"),
    ] {
        assert_eq!(remarks(&format!("{line}\n")), format!("line 3: not read: {words}\n"));
    }
}

#[test]
fn numbers_of_any_count_of_digits() {
    let wrapped = (1_u128 << 64) + 5;
    for word in ["1234567890123456", "99999999999999999999", &wrapped.to_string(), &"8".repeat(900)]
    {
        let seen = &word[..word.len().min(24)];
        let wanted = format!("line 3: refused 7 field 1: area: \"{seen}\" is out of its range; expected 0 to 100000.00 ha\n");
        assert_eq!(remarks(&format!("soil {word}\n")), wanted);
    }
    // A hundredth of 2^64, which would be little if it were cut to 64 bits.
    for word in ["184467440737095516.17", "184467440737095517", "9999999999999999999.99"] {
        let wanted = format!("line 3: refused 7 field 1: area: \"{word}\" is out");
        assert!(remarks(&format!("soil {word}\n")).starts_with(&wanted));
    }
    let third = (1_u128 << 64) + 3;
    assert_eq!(
        remarks(&format!("{third} 1 1 1\n")),
        "line 3: refused 3: no such kind of record: kinds are 1 to 10\n"
    );
    let class = (1_u128 << 64) + 1;
    assert!(remarks(&format!("heading 13 {class} 1\n")).starts_with("line 3: refused 7 field 2: "));
}
