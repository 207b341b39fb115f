//! Two books compared by groups: worked by hand on the sample.

use crate::makers::pairs::pair;
use crate::makers::plain::sample;
use crate::model::compare::compare;
use crate::model::covered::covered;
use crate::model::kind;
use crate::model::lister::list;
use crate::model::record::record_of;

const FARM: [u64; 3] = [7, 2010, 1];
const MARCH: (u8, &[u64]) = (kind::ENTERIC, &[31, 30_000, 650]);
const FEBRUARY: (u8, &[u64]) = (kind::ENTERIC, &[28, 30_000, 650]);
const ENERGY: (u8, &[u64]) = (kind::ENERGY, &[1, 125, 70_000]);
const TWELVE: (u8, &[u64]) = (kind::HEADING, &[12, 1, 40]);

/// The farm record, these, and a right close.
fn book(records: &[(u8, &[u64])]) -> Vec<u8> {
    let mut book = record_of(kind::FARM, &FARM);
    records.iter().for_each(|(kind, values)| book.extend(record_of(*kind, values)));
    [book, record_of(kind::CLOSE, &[records.len() as u64 + 1])].concat()
}

/// What is said between the verdicts and the last word.
fn said(old: &[u8], new: &[u8]) -> String {
    let said = compare(old, new);
    let said = said.strip_prefix("old: accepted\nnew: accepted\n").expect("both are accepted");
    said.strip_suffix("all else is the same\n").expect("something differs").to_string()
}

#[test]
fn one_value() {
    let new = book(&[TWELVE, (kind::ENTERIC, &[31, 30_001, 650]), ENERGY, FEBRUARY]);
    let wanted = "group 12:
record 2, enteric: GE 300.00 MJ, now 300.01
  CH4 434.501 kg, now 434.516, +0.015
subtotal:
  CH4 826.954 kg, now 826.969, +0.015
total:
  CH4 826.954 kg, now 826.969, +0.015
  CO2e 18241.034 kg, now 18241.349, +0.315
";
    assert_eq!(said(&sample(), &new), wanted);
}

#[test]
fn last_words() {
    let both = "old: accepted\nnew: accepted\n";
    assert_eq!(compare(&sample(), &sample()), format!("{both}nothing differs\n"));
    let more = [sample(), vec![0]].concat();
    assert_eq!(compare(&sample(), &more), format!("{both}no accepted record differs\n"));
    let none = "old: unfinished: the next length is not known\nnew: unfinished: the next length is not known\n";
    assert_eq!(compare(&[], &[0]), format!("{none}no accepted record differs\n"));
}

/// 30,000 × 650 × 41 × 31 / 55,650 is 445,363.9, and with 28 days 402,264.2.
#[test]
fn a_heading() {
    let new = book(&[(kind::HEADING, &[12, 2, 41]), MARCH, ENERGY, FEBRUARY]);
    let wanted = "group 12:
record 1, heading: class milking, now dry; head 40, now 41
2 records are the same and give other lines
subtotal:
  CH4 826.954 kg, now 847.628, +20.674
total:
  CH4 826.954 kg, now 847.628, +20.674
  CO2e 18241.034 kg, now 18675.188, +434.154
";
    assert_eq!(said(&sample(), &new), wanted);
    let one = said(&book(&[TWELVE, MARCH]), &book(&[(kind::HEADING, &[12, 1, 41]), MARCH]));
    assert!(one.contains("\n1 record is the same and gives another line\n"));
}

#[test]
fn another_order() {
    let turned = book(&[TWELVE, FEBRUARY, MARCH, ENERGY]);
    let same = "records 2 to 4 are the same in another order";
    assert_eq!(said(&sample(), &turned), format!("group 12:\n{same}, with the same lines\n"));
    let later = book(&[ENERGY, (kind::HEADING, &[12, 3, 40]), FEBRUARY, MARCH, ENERGY]);
    let wanted = format!("group 12:\nrecord 1, now 2, heading: class milking, now heifer\n{same}, now 3 to 5, under a changed heading\n");
    assert!(said(&sample(), &later).contains(&wanted));
    let twice = book(&[TWELVE, FEBRUARY, FEBRUARY, ENERGY]);
    assert!(!said(&sample(), &twice).contains("another order"));
    let before = said(
        &book(&[ENERGY, (kind::SOIL, &[3]), ENERGY]),
        &book(&[ENERGY, ENERGY, (kind::SOIL, &[3])]),
    );
    assert_eq!(
        before,
        "before the groups:\nrecords 2 to 3 are the same in another order, with the same lines\n"
    );
}

#[test]
fn groups_of_one_book() {
    let pens = book(&[
        (kind::HEADING, &[5, 4, 9]),
        TWELVE,
        MARCH,
        ENERGY,
        FEBRUARY,
        (kind::HEADING, &[13, 1, 40]),
        MARCH,
    ]);
    let wanted = "group 5, removed:
old record 1, heading: group 5; class pig; head 9
subtotal, only in old:
group 13, removed:
old record 6, heading: group 13; class milking; head 40
old record 7, enteric: days 31; GE 300.00 MJ; Ym 6.50 per cent
  CH4 434.501 kg
subtotal, only in old:
  CH4 434.501 kg
total:
  CH4 1261.455 kg, now 826.954, -434.501
  CO2e 27365.555 kg, now 18241.034, -9124.521
";
    assert_eq!(said(&pens, &sample()), wanted);
    assert!(said(&sample(), &pens).starts_with("group 5, added:\nnew record 1, heading: group 5; "));
}

/// One more between, and as many of another row.
#[test]
fn records_between() {
    let soil = (kind::SOIL, &[300_u64][..]);
    let more = "group 12:
new record 4, soil: area 3.00 ha
  CO2 55000.000 kg
total:
  CO2 875.000 kg, now 55875.000, +55000.000
  CO2e 18241.034 kg, now 73241.034, +55000.000
";
    assert_eq!(said(&sample(), &book(&[TWELVE, MARCH, ENERGY, soil, FEBRUARY])), more);
    let other = said(&sample(), &book(&[TWELVE, MARCH, soil, FEBRUARY]));
    let rows = "group 12:
old record 3, energy: source 1; amount 12.5 units; factor 70000 g CO2 per unit
  CO2 875.000 kg
new record 3, soil: area 3.00 ha
  CO2 55000.000 kg
total:
";
    assert!(other.starts_with(rows));
    let two = said(&sample(), &book(&[TWELVE, FEBRUARY, ENERGY, MARCH, soil]));
    assert!(
        two.contains("\nold record 2, ")
            && two.contains("\nold record 4, ")
            && two.contains("\nnew record 5, ")
    );
}

/// Of those between, one that is the same is not reported.
#[test]
fn one_by_one() {
    let ration = |days: u64| [days, 30_000, 650];
    let (a, b, c) = (ration(1), ration(2), ration(3));
    let of = |x, y, z| book(&[TWELVE, (kind::ENTERIC, x), (kind::ENTERIC, y), (kind::ENTERIC, z)]);
    let text = said(&of(&a, &b, &a), &of(&c, &b, &c));
    assert!(
        text.contains("record 2, enteric: days 1, now 3\n")
            && text.contains("record 4, enteric: days 1, now 3\n")
    );
    assert!(!text.contains("record 3"));
}

#[test]
fn an_unfinished_book() {
    let text = compare(&sample()[..57], &sample());
    let wanted = "old: unfinished: the next length is not known
new: accepted
group 12:
subtotal, only in new:
  CH4 826.954 kg
total, only in new:
  CH4 826.954 kg
  CO2 875.000 kg
  CO2e 18241.034 kg
all else is the same
";
    assert_eq!(text, wanted);
}

#[test]
fn a_farm_record() {
    let rest = &sample()[11..];
    let other = [record_of(kind::FARM, &[7, 2011, 2]), rest.to_vec()].concat();
    let text = said(&sample(), &other);
    assert!(text.starts_with("before the groups:\nrecord 0, farm: year 2010, now 2011; warming set 1, now 2\ntotal:\n  CO2e "));
    let factors = [record_of(kind::FARM, &[7, 2010, 21, 310]), rest.to_vec()].concat();
    let wanted = "before the groups:
old record 0, farm: farm number 7; year 2010; warming set 1
new record 0, farm: farm number 7; year 2010; CH4 factor 21; N2O factor 310
";
    assert_eq!(said(&sample(), &factors), wanted);
}

/// No section can be left out of what is said where a line of it differs.
#[test]
fn nothing_goes_unsaid() {
    let new = book(&[
        (kind::HEADING, &[5, 4, 9]),
        (kind::HEADING, &[12, 1, 41]),
        (kind::ENTERIC, &[31, 30_001, 650]),
        FEBRUARY,
    ]);
    let (a, b, said) = (list(&sample()), list(&new), compare(&sample(), &new));
    assert_eq!(covered(&a, &b, &said), Ok(10));
    let lines: Vec<&str> = said.lines().collect();
    for at in 2..lines.len() - 1 {
        let rest = [&lines[..at], &lines[at + 1..]].concat().join("\n");
        let heading = lines[at].contains("heading: ");
        assert!(covered(&a, &b, &rest).is_err() != heading, "{}", lines[at]);
    }
}

#[test]
fn nothing_goes_unsaid_of_fresh_pairs() {
    for index in 0..300 {
        let (old, new) = pair(23, index);
        let said = compare(&old, &new);
        let covered = covered(&list(&old), &list(&new), &said);
        assert!(covered.is_ok(), "pair {index}: {covered:?}");
    }
}
