//! Whether nothing that differs goes unsaid: each line that one lister's text has and the other has not is reported by what compare prints.

use crate::model::changes::FIGURES;
use crate::model::kind;
use crate::model::reported::{read, Figure, Record, Reported, Section, Sums};
use crate::model::words::kind_name;
use std::collections::{BTreeMap, BTreeSet};

/// A line of the lister: its kind, its group, and its figures.
type Listed = (u8, u16, Vec<i128>);

/// The texts of the old book and of the new one.
type Pair<T> = [T; 2];

fn listed(text: &str) -> Vec<Listed> {
    let line = |line: &str| {
        let numbers: Option<Vec<i128>> = line.split(' ').map(|word| word.parse().ok()).collect();
        numbers.map(|n| (n[0] as u8, n[1] as u16, n[2..].to_vec()))
    };
    text.lines().filter_map(line).collect()
}

/// The lines of `some` that `others` have not, each as often as it is lacking.
fn lacking(some: &[Listed], others: &[Listed]) -> Vec<Listed> {
    let mut left: BTreeMap<Listed, usize> = BTreeMap::new();
    for line in others {
        *left.entry(line.clone()).or_default() += 1;
    }
    let mut lacks = |line: &&Listed| match left.get_mut(*line) {
        Some(count) if *count > 0 => {
            *count -= 1;
            false
        }
        _ => true,
    };
    some.iter().filter(|line| lacks(line)).cloned().collect()
}

/// The records of this kind that are reported of the old book, 0, or of the new one, 1.
fn records_of<'a>(sections: &[&'a Section], kind: u8, book: usize) -> Vec<&'a Record> {
    let records = sections.iter().flat_map(|section| &section.records);
    records.filter(|r| r.name == kind_name(kind.into()) && [r.old, r.new][book]).collect()
}

/// Whether a record can be the one that gives this line: no figure reported is another, and of a record that stands alone none but 0 is left out.
fn gives(record: &Record, line: &Listed, book: usize) -> bool {
    let alone = record.old != record.new;
    FIGURES.iter().zip(&line.2).all(|(name, &grams)| {
        match record.figures.iter().find(|figure| figure.0 == *name) {
            Some(&(_, x, y)) => grams == [x, y][book],
            None => !alone || grams == 0,
        }
    })
}

/// Each line is reported by a record of its kind, of which there are as many, or is one of those that are only counted: a farm's own line never is.
fn lines_covered(lines: &[Listed], sections: &[&Section], book: usize) -> Result<(), String> {
    let of_group = lines.iter().all(|line| line.1 > 0);
    let mut counted: usize = sections.iter().map(|s| if of_group { s.counted } else { 0 }).sum();
    let kinds: BTreeSet<u8> = lines.iter().map(|line| line.0).collect();
    for kind in kinds {
        let of_kind: Vec<&Listed> = lines.iter().filter(|line| line.0 == kind).collect();
        let records = records_of(sections, kind, book);
        let found = |line: &&&Listed| records.iter().any(|record| gives(record, line, book));
        let unsaid = of_kind.len() - of_kind.iter().filter(found).count().min(records.len());
        if unsaid > counted {
            let book = ["old", "new"][book];
            return Err(format!("{unsaid} lines of {book} are not reported, of {of_kind:?}"));
        }
        counted -= unsaid;
    }
    Ok(())
}

/// What is to be reported of two subtotals or totals.
fn sums_of(lines: Pair<Option<&Listed>>) -> Option<Sums> {
    let named = |x: &[i128], y: &[i128], keep: fn(i128, i128) -> bool| -> Vec<Figure> {
        let figures =
            FIGURES.iter().zip(x.iter().zip(y)).map(|(name, (&x, &y))| (name.to_string(), x, y));
        figures.filter(|&(_, x, y)| keep(x, y)).collect()
    };
    let one = |word: &str, line: &Listed| {
        let (words, figures) =
            (format!(", only in {word}:"), named(&line.2, &line.2, |x, _| x != 0));
        Some(Sums { words, figures })
    };
    match lines {
        [Some(old), Some(new)] => {
            let figures = named(&old.2, &new.2, |x, y| x != y);
            (!figures.is_empty()).then(|| Sums { words: ":".to_string(), figures })
        }
        [Some(old), None] => one("old", old),
        [None, Some(new)] => one("new", new),
        [None, None] => None,
    }
}

fn sum_of(lines: &[Listed], kind: u8, group: u16) -> Option<&Listed> {
    lines.iter().find(|line| line.0 == kind && line.1 == group)
}

/// The details of one group; those of the farm have the group 0.
fn details_of(lines: &[Listed], group: u16) -> Vec<Listed> {
    let is_sum = |kind| kind == kind::SUBTOTAL || kind == kind::CLOSE;
    lines.iter().filter(|line| line.1 == group && !is_sum(line.0)).cloned().collect()
}

fn same(what: &str, wanted: Option<Sums>, got: Option<Sums>) -> Result<(), String> {
    if wanted == got {
        return Ok(());
    }
    Err(format!("the {what}: {wanted:?} is to be reported, and it is {got:?}"))
}

/// A group's details and its subtotal; the farm's own details may stand in any section.
fn group_covered(books: &Pair<Vec<Listed>>, reported: &Reported, group: u16) -> Result<(), String> {
    let in_group = |section: &&Section| group == 0 || section.group == group;
    let sections: Vec<&Section> = reported.sections.iter().filter(in_group).collect();
    let [old, new] = [0, 1].map(|book| details_of(&books[book], group));
    lines_covered(&lacking(&old, &new), &sections, 0)?;
    lines_covered(&lacking(&new, &old), &sections, 1)?;
    let wanted = sums_of([0, 1].map(|book| sum_of(&books[book], kind::SUBTOTAL, group)));
    let section = reported.sections.iter().find(|section| section.group == group);
    let got = section.and_then(|section| section.subtotal.clone());
    same(&format!("subtotal of group {group}"), wanted, got)
}

/// How many lines differ, all of them reported; or what is not.
pub fn covered(old: &str, new: &str, said: &str) -> Result<usize, String> {
    let (books, reported) = ([listed(old), listed(new)], read(said)?);
    let groups: BTreeSet<u16> = books.iter().flatten().map(|line| line.1).collect();
    for &group in &groups {
        group_covered(&books, &reported, group)?;
    }
    let wanted = sums_of([0, 1].map(|book| sum_of(&books[book], kind::CLOSE, 0)));
    same("total", wanted, reported.total)?;
    let [old, new] = &books;
    Ok(lacking(old, new).len() + lacking(new, old).len())
}
