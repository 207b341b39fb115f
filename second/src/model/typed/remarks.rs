//! What is said of a typed text: messages on lines, unusual values, groups, and how many of each.

use super::line::Typed;
use crate::model::fields::{count_of, names_of, spoken_of, with_decimals};
use crate::model::figures::round;
use crate::model::kind;
use crate::model::state::{Heading, Refusal, State};
use crate::model::usual::usual_at;
use crate::model::words::{class_name, kind_name, sentence, shown};

/// The most messages that are shown, and the most unusual values.
const MOST_SHOWN: usize = 20;

#[derive(Default)]
pub struct Remarks {
    pub said: String,
    messages: usize,
    pub unusual: usize,
}

impl Remarks {
    pub fn say(&mut self, words: &str) {
        self.said += words;
        self.said.push('\n');
    }

    /// A message, shown where there have not been too many.
    pub fn tell(&mut self, words: &str) {
        self.messages += 1;
        if self.messages <= MOST_SHOWN {
            self.say(words);
        }
    }

    /// The unusual values of a line that is written, under a heading of this class.
    pub fn tell_unusual(&mut self, number: usize, kind: u8, class: u8, values: &[u64]) {
        for place in 0..values.len() {
            if let Some(words) = unusual_text(kind, class, values, place) {
                self.unusual += 1;
                if self.unusual <= MOST_SHOWN {
                    self.say(&format!("line {number}: unusual: {words}"));
                }
            }
        }
    }

    /// How many were not shown, of both.
    pub fn tell_the_rest(&mut self) {
        for (count, what) in [(self.messages, ""), (self.unusual, " unusual")] {
            if count > MOST_SHOWN {
                self.say(&format!("and {} more{what}", count - MOST_SHOWN));
            }
        }
    }
}

/// What is unusual about the value at this place, if anything.
fn unusual_text(kind: u8, class: u8, values: &[u64], place: usize) -> Option<String> {
    let usual = usual_at(kind, class, values, place)?;
    if (usual.low..=usual.high).contains(&values[place]) {
        return None;
    }
    let field = &spoken_of(kind.into(), values.len())[place];
    let value = field.said_with_unit(values[place].into());
    let whose = usual.whose.map_or(String::new(), |name| format!(" for {name}"));
    let (low, high) = (field.said(usual.low.into()), field.said(usual.high.into()));
    let range = if low == high { low } else { format!("{low} to {high}") };
    Some(format!("{}, {} {value}: usual{whose} is {range}", kind_name(kind.into()), field.name))
}

/// A line that the writer refused after this state.
pub fn refusal_text(state: &State, typed: &Typed, refusal: Refusal) -> String {
    let words = match refusal.code {
        4 => count_text(typed),
        7 => {
            let place = usize::from(refusal.field) - 1;
            let field = &spoken_of(typed.kind, typed.words.len())[place];
            let (word, expected) = (shown(typed.words[place]), field.expected());
            let what = format!("{}: \"{word}\" is out of its range", field.name);
            return format!("refused 7 field {}: {what}; expected {expected}", refusal.field);
        }
        9 | 10 => sum_text(state, typed, refusal.code),
        code => sentence(code).to_string(),
    };
    format!("refused {}: {words}", refusal.code)
}

fn count_text(typed: &Typed) -> String {
    let (name, takes) = (kind_name(typed.kind), count_of(typed.kind));
    let here = match typed.words.len() {
        1 => "1 is here".to_string(),
        count => format!("{count} are here"),
    };
    format!("{name} takes {takes}, and {here}; expected {}", names_of(typed.kind))
}

/// Days, shares, parts or fractions that do not go together.
fn sum_text(state: &State, typed: &Typed, code: u8) -> String {
    let values: Vec<u128> = typed.offered(state.records).into_iter().map(u128::from).collect();
    let kind = kind::of(typed.kind).expect("another kind is refused by 3");
    match (code, kind) {
        (9, _) => {
            let before = state.heading.days[kind::days_at(kind)];
            sum_with("days", before, values[0], 366, 0)
        }
        (_, kind::CATTLE) => {
            let together = with_decimals(values[6] + values[7] + values[8], 2);
            format!("the three shares must make 100.00 per cent: together {together}")
        }
        (_, kind::PIG) => {
            let together = with_decimals(values[8] + values[10], 3);
            format!(
                "the volatilised and the leached part must make at most 1.000: together {together}"
            )
        }
        _ => sum_with("fraction", state.heading.grazed, values[3], 10_000, 2),
    }
}

/// What there was under the heading, what is typed, and both together.
fn sum_with(name: &str, before: u16, typed: u128, most: u128, decimals: usize) -> String {
    let [old, new, sum, most] = [before.into(), typed, u128::from(before) + typed, most]
        .map(|value| with_decimals(value, decimals));
    format!("{name}: {old} and {new} make {sum}, and {most} are the most")
}

/// The group under the heading: its days, with a word where they are not the year's, and its gases.
pub fn group_text(state: &State, year: u64) -> String {
    let Heading { group, class, head, days, .. } = state.heading;
    let year = days_of(year);
    let days_text = |(kind, days): (u8, u16)| {
        let of = if days == year { String::new() } else { format!(" of {year}") };
        format!("{} {days} days{of}", kind_name(kind.into()))
    };
    let kinds: Vec<String> =
        kind::WITH_DAYS.zip(days).filter(|&(_, days)| days > 0).map(days_text).collect();
    let kinds = if kinds.is_empty() { "no days".to_string() } else { kinds.join(", ") };
    let ch4 = gas_text("CH4", state.subtotal.ch4, head);
    let n2o = gas_text("N2O", state.subtotal.n2o, head);
    format!("group {group} {}, {head} head: {kinds}{ch4}{n2o}", class_name(class))
}

/// Kilograms of a gas, and what that is for each head, to a tenth.
fn gas_text(name: &str, grams: u64, head: u16) -> String {
    if grams == 0 {
        return String::new();
    }
    let a_head = match head {
        0 => String::new(),
        _ => {
            let tenths = round(grams.into(), 100 * u128::from(head));
            format!(", {} kg a head", with_decimals(tenths.into(), 1))
        }
    };
    format!("; {name} {} kg{a_head}", with_decimals(grams.into(), 3))
}

fn days_of(year: u64) -> u16 {
    let leap = year % 4 == 0 && (year % 100 != 0 || year % 400 == 0);
    if leap {
        366
    } else {
        365
    }
}
