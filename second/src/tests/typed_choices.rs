//! Fields that are one of a few named things: by word, by number, and misspelt.

use super::typed::{messages, record_typed, remarks};
use crate::model::record::record_of;

/// Field, kind, a line with a blank for it, and its words, as they were decided.
const CHOICES: [(&str, &str, &str, &str); 6] = [
    ("class", "heading", "heading 13 _ 40", "milking dry heifer pig"),
    ("texture", "tillage", "tillage 1 _ 1 1 1", "coarse medium fine"),
    (
        "zone",
        "tillage",
        "tillage _ 1 1 1 1",
        "boreal-shield-west atlantic-maritime boreal-plains boreal-shield-east mixedwood-plains semiarid-prairies \
         montane-cordillera pacific-maritime subhumid-prairies",
    ),
    (
        "change",
        "tillage",
        "tillage 1 1 _ 1 1",
        "intensive-to-reduced reduced-to-no intensive-to-no reduced-to-intensive no-to-reduced no-to-intensive",
    ),
    (
        "region",
        "grazing",
        "grazing _ 1 600 5",
        "atlantic quebec ontario manitoba saskatchewan alberta british-columbia",
    ),
    ("column", "grazing", "grazing 1 _ 300 5", "cows heifers calves"),
];

fn in_title_case(word: &str) -> String {
    let part = |part: &str| part[..1].to_uppercase() + &part[1..];
    word.split('-').map(part).collect::<Vec<_>>().join("-")
}

#[test]
fn a_word_stands_for_its_number() {
    for (_, _, line, words) in CHOICES {
        for (number, word) in (1..).zip(words.split_whitespace()) {
            let by_number = record_typed(1, &line.replace('_', &number.to_string()));
            assert!(by_number.is_some(), "{line} {number}");
            for typed in [word.to_string(), word.to_uppercase(), in_title_case(word)] {
                assert_eq!(record_typed(1, &line.replace('_', &typed)), by_number, "{typed}");
            }
            assert_eq!(record_typed(1, &line.replace('_', &format!("000{number}"))), by_number);
        }
    }
    let tillage = record_typed(1, "tillage Subhumid-Prairies fine no-to-intensive 10 1.5");
    assert_eq!(tillage, Some(record_of(9, &[9, 3, 6, 10, 150])));
    let grazing = record_typed(1, "grazing British-Columbia CALVES 100 25");
    assert_eq!(grazing, Some(record_of(10, &[7, 3, 100, 2_500])));
}

#[test]
fn another_word_is_none_of_them() {
    for (field, kind, line, words) in CHOICES {
        let (count, words) = (
            words.split_whitespace().count(),
            words.split_whitespace().collect::<Vec<_>>().join(", "),
        );
        for typed in ["Bavaria", "milkin", "cow", "boreal", "1.0", "-1", "1,", "no", "\u{e9}"] {
            let seen = typed.replace('\u{e9}', "??");
            let wanted =
                format!("line 3: not read: {kind}, {field}: \"{seen}\" is none of {words}\n");
            assert_eq!(remarks(&format!("{}\n", line.replace('_', typed))), wanted);
        }
        for typed in ["0".to_string(), (count + 1).to_string(), "256".to_string()] {
            let told = remarks(&format!("{}\n", line.replace('_', &typed)));
            let wanted = format!(
                "{field}: \"{typed}\" is out of its range; expected 1 to {count} ({words})\n"
            );
            assert!(
                told.starts_with("line 3: refused 7 field ") && told.ends_with(&wanted),
                "{told}"
            );
        }
    }
    let told = remarks("grazing Bavaria cows 600 50\n");
    let wanted = "line 3: not read: grazing, region: \"Bavaria\" is none of atlantic, quebec, ontario, manitoba, \
        saskatchewan, alberta, british-columbia\n";
    assert_eq!(told, wanted);
}

#[test]
fn other_fields_have_no_words() {
    let told = messages("farm 7 2010 one\nenergy oil 1 1\n");
    let wanted = "line 1: not read: farm, warming set: \"one\" is no whole number; expected 1 or 2 (or the CH4 and the N2O factor in its place)\n\
        line 2: not read: energy, source: \"oil\" is no whole number; expected 1 to 8 (the documents give no names)\n";
    assert_eq!(told, wanted);
}
