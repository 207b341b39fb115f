//! Stored cases of document 02's W10: every factor of the table, halves, fractions at and over the whole, and grazing among all other records.

use crate::makers::cases::{in_every_room, whole};
use crate::makers::damages;
use crate::makers::dice::{Dice, Seed};
use crate::makers::plain::{book_of, plain_values, under};
use crate::makers::states::{grazing_beside, most_subtotal, most_sums};
use crate::makers::trial::Case;
use crate::model::kind;
use crate::model::record::record_of;
use crate::model::state::{Heading, State, LINE, SURE};
use crate::model::warming::{SET_1, SET_2};

/// What is drawn here knows no kind after grazing.
pub const SEED: Seed = Seed::up_to(kind::GRAZING, 10);

pub fn stored(bases: &[State]) -> Vec<Case> {
    let mut cases = every_factor();
    cases.extend(worked());
    cases.extend(fractions());
    cases.extend(heaviest());
    cases.extend(books().into_iter().flat_map(in_every_room));
    let without_heading = State { heading: Heading::default(), ..under(1) };
    let beside = bases.iter().chain([&without_heading]).flat_map(grazing_beside);
    cases.extend(beside.map(|state| whole(state, vec![0], SURE)));
    cases.extend(damages::stored_of(SEED, (0..20).chain(200..210)));
    cases.extend((1..=100).map(|index| crate::makers::cases::case(SEED, index)));
    cases
}

fn grazing(values: [u64; 4]) -> Vec<u8> {
    record_of(kind::GRAZING, &values)
}

/// A record under a heading with so many head, and the close.
fn with_close(head: u16, values: [u64; 4]) -> Case {
    let mut state = under(1);
    state.heading.head = head;
    whole(state, [grazing(values), record_of(kind::CLOSE, &[3])].concat(), LINE + SURE)
}

/// Each region and column, with weights, fractions and heads by chance.
fn every_factor() -> Vec<Case> {
    let mut dice = Dice::of_case(SEED, 0);
    let mut cases = Vec::new();
    for region in 1..=7 {
        for column in 1..=3 {
            let (weight, fraction) = (dice.edgy(0, 2_000), dice.edgy(0, 10_000));
            let head = dice.edgy(0, 20_000) as u16;
            cases.push(with_close(head, [region, column, weight, fraction]));
        }
    }
    cases
}

/// The request's own example, the ends of weight, fraction and head, and halves above even and odd numbers.
fn worked() -> Vec<Case> {
    let mut cases = vec![with_close(1, [3, 1, 600, 5_000])];
    for (weight, fraction) in [(0, 10_000), (2_000, 0), (1, 1), (2_000, 10_000)] {
        cases.extend([0, 1, 20_000].map(|head| with_close(head, [4, 2, weight, fraction])));
    }
    let halves = [50, 150, 250, 350].map(|weight| with_close(1, [1, 1, weight, 1]));
    cases.extend(halves);
    cases.extend([1, 3, 5, 7].map(|fraction| with_close(3, [4, 3, 100, fraction])));
    cases
}

/// Fractions that come to the whole and pass it, in one book; where the whole is reached none but zero goes in.
fn fractions() -> Vec<Case> {
    let after = |grazed| {
        let mut state = under(2);
        state.heading.grazed = grazed;
        state
    };
    let mut cases = Vec::new();
    for (grazed, fraction) in [
        (0, 10_000),
        (0, 10_001),
        (1, 9_999),
        (1, 10_000),
        (9_999, 1),
        (9_999, 2),
        (10_000, 0),
        (10_000, 1),
    ] {
        let record = grazing([7, 3, 100, fraction]);
        cases.extend([0, LINE - 1, LINE].map(|room| whole(after(grazed), record.clone(), room)));
    }
    let new_heading = record_of(kind::HEADING, &[6, 1, 40]);
    let again = [grazing([1, 1, 500, 1]), new_heading, grazing([1, 1, 500, 10_000])].concat();
    cases.push(whole(after(9_999), again, 1_000));
    cases
}

/// The largest figure there is on the largest subtotal and sums, by both warming sets.
fn heaviest() -> Vec<Case> {
    let with_set = |factors| {
        let (subtotal, sums) = (most_subtotal(2), most_sums(2));
        let mut state = State { factors, subtotal, sums, ..under(1) };
        state.heading.head = 20_000;
        let close = record_of(kind::CLOSE, &[3]);
        whole(state, [grazing([1, 1, 2_000, 10_000]), close].concat(), LINE + SURE)
    };
    [SET_1, SET_2].map(with_set).to_vec()
}

/// All kinds together, grazing alone in its group, between other rations, before and behind the farm's records; and one with more than the whole.
fn books() -> Vec<Vec<u8>> {
    let plain = |kind| (kind, 0, 0);
    let all = [
        plain(kind::FARM),
        plain(kind::TILLAGE),
        (kind::HEADING, 12, 1),
        plain(kind::ENTERIC),
        plain(kind::GRAZING),
        plain(kind::SOIL),
        plain(kind::CATTLE),
        plain(kind::GRAZING),
        (kind::HEADING, 13, 3),
        plain(kind::GRAZING),
        (kind::HEADING, 500, 4),
        plain(kind::PIG),
        plain(kind::ENERGY),
        plain(kind::CLOSE),
    ];
    let alone =
        [plain(kind::FARM), (kind::HEADING, 1, 2), plain(kind::GRAZING), plain(kind::CLOSE)];
    let farm = record_of(kind::FARM, &plain_values(kind::FARM));
    let heading = record_of(kind::HEADING, &[9, 3, 40]);
    let too_much = [farm, heading, grazing([3, 2, 300, 6_000]), grazing([3, 2, 300, 4_001])];
    vec![book_of(&all), book_of(&alone), too_much.concat()]
}
