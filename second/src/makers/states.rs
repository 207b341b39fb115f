//! States by chance: ones in range, and ones with a single part at or beside its bound.

use crate::makers::dice::Dice;
use crate::model::figures::{signed, Figures, Subtotal};
use crate::model::kind;
use crate::model::state::{
    Heading, Refusal, State, CLOSED, MOST_RECORDS, NO_RECORD, OPEN, REFUSED,
};
use crate::model::warming::{factors, Factors, NONE, SET_1, SET_2};

/// Grams that a record can add: CH4, N2O, CO2, excreted N, land N; and grazing's CO2e.
const BOUNDS: [u64; 5] =
    [100_000_000_000, 10_000_000_000, 10_000_000_000_000, 100_000_000_000, 100_000_000_000];
const GRAZING_BOUND: u64 = 100_000_000_000;

fn figures_of([ch4, n2o, co2, excreted, land]: [u64; 5], grazing: u64) -> Figures {
    Figures { ch4, n2o, co2: signed(co2), excreted, land, grazing }
}

/// The subtotal's part of them, which leaves out CO2.
fn subtotal_of([ch4, n2o, _, excreted, land]: [u64; 5]) -> Subtotal {
    Subtotal { ch4, n2o, excreted, land }
}

/// The subtotal at its bounds.
pub fn most_subtotal(records: u16) -> Subtotal {
    subtotal_of(BOUNDS.map(|bound| u64::from(records) * bound))
}

/// The sums at their bounds.
pub fn most_sums(records: u16) -> Figures {
    let records = u64::from(records);
    figures_of(BOUNDS.map(|bound| records * bound), records * GRAZING_BOUND)
}

/// The same, CO2 at its bound below zero.
pub fn least_co2(records: u16) -> Figures {
    let most = most_sums(records);
    Figures { co2: -most.co2, ..most }
}

/// A state in range at this stage, holding no bytes.
pub fn right_state(dice: &mut Dice, stage: u8) -> State {
    let fewest = match stage {
        NO_RECORD => return State::default(),
        OPEN => 1,
        CLOSED => 2,
        _ => 0,
    };
    let records = dice.edgy(fewest, u64::from(MOST_RECORDS)) as u16;
    let mut state = State { stage, records, ..State::default() };
    if records > 0 {
        state.factors = dice.of(&[SET_1, SET_2]);
        if dice.knows_factors() && dice.one_in(2) {
            state.factors = some_factors(dice);
        }
        state.sums = some_sums(dice, u64::from(records));
        if dice.knows(kind::TILLAGE) && dice.one_in(2) {
            state.sums.co2 = -state.sums.co2;
        }
    }
    if records > 1 && !dice.one_in(4) {
        state.heading = some_heading(dice);
        state.subtotal =
            subtotal_of(BOUNDS.map(|bound| some_sum(dice, u64::from(records) * bound)));
    }
    if stage == REFUSED {
        state.refusal = some_refusal(dice, records);
    }
    state
}

/// Factors at both ends of their range, those of the sets, and the same exchanged.
pub const FACTORS: [Factors; 11] = [
    factors(1, 1),
    factors(1, 1_000),
    factors(1_000, 1),
    factors(1_000, 1_000),
    factors(2, 999),
    SET_1,
    SET_2,
    factors(310, 21),
    factors(296, 23),
    factors(21, 21),
    factors(25, 298),
];

pub fn some_factors(dice: &mut Dice) -> Factors {
    if dice.one_in(2) {
        return dice.of(&FACTORS);
    }
    factors(dice.edgy(1, 1_000) as u16, dice.edgy(1, 1_000) as u16)
}

fn some_sums(dice: &mut Dice, records: u64) -> Figures {
    let five = BOUNDS.map(|bound| some_sum(dice, records * bound));
    let known = dice.knows(kind::GRAZING);
    figures_of(five, if known { some_sum(dice, records * GRAZING_BOUND) } else { 0 })
}

fn some_sum(dice: &mut Dice, bound: u64) -> u64 {
    match dice.below(4) {
        0 => 0,
        1 => bound,
        2 => dice.below(1_000_000).min(bound),
        _ => dice.between(0, bound),
    }
}

/// Sums of fractions, with room for more and without.
const GRAZED: [u16; 7] = [0, 0, 1, 5_000, 9_000, 9_999, 10_000];

fn some_heading(dice: &mut Dice) -> Heading {
    Heading {
        group: dice.edgy(1, 65_535) as u16,
        class: dice.between(1, 4) as u8,
        head: dice.edgy(0, 20_000) as u16,
        days: [0; 3].map(|_| dice.of(&[0, 0, 1, 100, 365, 366])),
        grazed: if dice.knows(kind::GRAZING) { dice.of(&GRAZED) } else { 0 },
    }
}

pub fn some_refusal(dice: &mut Dice, record: u16) -> Refusal {
    let code = dice.between(1, 12) as u8;
    let field = if code == 7 { dice.between(1, 12) as u8 } else { 0 };
    Refusal { code, record, field }
}

/// The state with one part changed, to each value at or beside a bound of that part; none twice.
pub fn beside_bounds(base: &State) -> Vec<State> {
    let parts = [
        stage_beside(base),
        heading_beside(base),
        subtotal_beside(base),
        sums_beside(base),
        refusal_beside(base),
        held_beside(base),
    ];
    let mut states = Vec::new();
    for state in parts.concat() {
        if state != *base && !states.contains(&state) {
            states.push(state);
        }
    }
    states
}

/// One of those, of the bare ones, or of those with another CO2, other grazing or other factors, by chance.
pub fn some_beside(dice: &mut Dice, base: &State) -> State {
    let states = if dice.one_in(10) {
        bare_states()
    } else if dice.knows(kind::TILLAGE) && dice.one_in(8) {
        co2_beside(base)
    } else if dice.knows(kind::GRAZING) && dice.one_in(8) {
        grazing_beside(base)
    } else if dice.knows_factors() && dice.one_in(8) {
        factors_beside(base)
    } else {
        beside_bounds(base)
    };
    states[dice.below(states.len() as u64) as usize]
}

fn stage_beside(base: &State) -> Vec<State> {
    let mut states = Vec::new();
    for stage in [0, 1, 2, 3, 4, 255] {
        states.push(State { stage, ..*base });
    }
    for records in [0, 1, 2, 4_095, 4_096, 4_097, 65_535] {
        states.push(State { records, ..*base });
        let refusal = Refusal { record: records, ..base.refusal };
        states.push(State { records, refusal, ..*base });
    }
    for factors in [NONE, SET_1, SET_2, factors(1_001, 310), factors(23, 1_001)] {
        states.push(State { factors, ..*base });
    }
    states
}

pub fn heading_beside(base: &State) -> Vec<State> {
    let with = |heading| State { heading, ..*base };
    let h = base.heading;
    let mut states = Vec::new();
    for group in [0, 1, 65_535] {
        states.push(with(Heading { group, ..h }));
    }
    for class in [0, 1, 4, 5, 255] {
        states.push(with(Heading { class, ..h }));
    }
    for head in [0, 1, 20_000, 20_001, 65_535] {
        states.push(with(Heading { head, ..h }));
    }
    for kind in 0..3 {
        for days in [0, 1, 366, 367, 65_535] {
            let mut changed = h;
            changed.days[kind] = days;
            states.push(with(changed));
        }
    }
    states.push(with(Heading::default()));
    states.push(State { subtotal: Subtotal::default(), ..with(Heading::default()) });
    states.push(with(Heading { group: 1, class: 1, head: 0, days: [0; 3], grazed: 0 }));
    states
}

/// Where there is no heading, all but zero are out of range.
pub fn subtotal_beside(base: &State) -> Vec<State> {
    let mut states = Vec::new();
    for (i, bound) in BOUNDS.iter().enumerate() {
        let most = u64::from(base.records) * bound;
        for value in [0, 1, most, most + 1, u64::MAX] {
            let mut figures = first_five(base.subtotal.figures());
            figures[i] = value;
            states.push(State { subtotal: subtotal_of(figures), ..*base });
        }
    }
    states
}

/// The figures but for grazing.
fn first_five(figures: Figures) -> [u64; 5] {
    let [ch4, n2o, co2, excreted, land, _] = figures.in_order();
    [ch4, n2o, co2, excreted, land]
}

fn sums_beside(base: &State) -> Vec<State> {
    let mut states = Vec::new();
    for (i, bound) in BOUNDS.iter().enumerate() {
        let most = u64::from(base.records) * bound;
        for value in [0, most, most + 1, u64::MAX] {
            let mut sums = first_five(base.sums);
            sums[i] = value;
            states.push(State { sums: figures_of(sums, base.sums.grazing), ..*base });
        }
    }
    states
}

/// CO2 at and beside its bounds on both sides of zero, and at the ends of its bytes.
pub fn co2_beside(base: &State) -> Vec<State> {
    let most = most_sums(base.records).co2;
    let values = [most, most + 1, -1, -most, -most - 1, i64::MAX, i64::MIN];
    values.map(|co2| State { sums: Figures { co2, ..base.sums }, ..*base }).to_vec()
}

/// The sum of fractions and the grazing sum at and beside their bounds.
pub fn grazing_beside(base: &State) -> Vec<State> {
    let mut states = Vec::new();
    for grazed in [0, 1, 5_000, 9_999, 10_000, 10_001, 65_535] {
        states.push(State { heading: Heading { grazed, ..base.heading }, ..*base });
    }
    let most = u64::from(base.records) * GRAZING_BOUND;
    for grazing in [0, 1, most, most + 1, u64::MAX] {
        states.push(State { sums: Figures { grazing, ..base.sums }, ..*base });
    }
    states
}

/// Each factor at and beside the ends of its range with the other as it is, both together, and both exchanged; none twice.
pub fn factors_beside(base: &State) -> Vec<State> {
    let Factors { ch4, n2o } = base.factors;
    let mut pairs = vec![factors(n2o, ch4), NONE, SET_1, SET_2];
    for end in [0, 1, 2, 999, 1_000, 1_001, 65_535] {
        pairs.extend([factors(end, n2o), factors(ch4, end), factors(end, end)]);
    }
    pairs.extend([factors(0, 1), factors(1, 0), factors(1_000, 1_001), factors(1_001, 1_000)]);
    let mut states = Vec::new();
    for state in pairs.into_iter().map(|factors| State { factors, ..*base }) {
        if !states.contains(&state) {
            states.push(state);
        }
    }
    states
}

fn refusal_beside(base: &State) -> Vec<State> {
    let with = |refusal| State { refusal, ..*base };
    let r = base.refusal;
    let mut states = Vec::new();
    for code in [0, 1, 6, 7, 8, 12, 13, 255] {
        states.push(with(Refusal { code, ..r }));
    }
    for record in [0, base.records.wrapping_sub(1), base.records, base.records + 1, 65_535] {
        states.push(with(Refusal { record, ..r }));
    }
    for field in [0, 1, 12, 13, 255] {
        states.push(with(Refusal { field, ..r }));
    }
    states
}

fn held_beside(base: &State) -> Vec<State> {
    let count = base.held_count;
    let mut states = Vec::new();
    for held_count in [0, 1, 2, count.wrapping_sub(1), count + 1, 26, 27, 28, 1 << 32, u64::MAX] {
        states.push(State { held_count, ..*base });
    }
    for at in [0, count.min(26) as usize, 26] {
        let mut state = *base;
        state.held[at] ^= 1;
        states.push(state);
    }
    for length in [0, 1, 3, 4, 26, 27, 255, 256, 259, 260, 65_535] {
        states.push(holding(base, length, count));
    }
    // A record with one byte missing is held; with none missing it would be fulfilled.
    for length in [4, 9, 25, 26] {
        for held_count in [u64::from(length) + 1, u64::from(length) + 2] {
            states.push(holding(base, length, held_count));
        }
    }
    states
}

/// The state with a stated length in its first two held bytes, and so many held.
fn holding(base: &State, length: u16, held_count: u64) -> State {
    let mut held = base.held;
    held[..2].copy_from_slice(&length.to_be_bytes());
    for place in held.iter_mut().skip(held_count as usize) {
        *place = 0;
    }
    State { held, held_count, ..*base }
}

/// States where stage, count of records and the sets' factors meet their bounds together, all else zero.
pub fn bare_states() -> Vec<State> {
    bare_states_with(&[NONE, SET_1, SET_2])
}

/// The same with each of these factors.
pub fn bare_states_with(all: &[Factors]) -> Vec<State> {
    let mut states = Vec::new();
    for (stage, records) in [(0, 0), (0, 1), (1, 0), (1, 1), (2, 0), (2, 1), (2, 2), (3, 0), (3, 1)]
    {
        for &factors in all {
            let code = if stage == REFUSED { 4 } else { 0 };
            let refusal = Refusal { code, record: if code > 0 { records } else { 0 }, field: 0 };
            states.push(State { stage, records, factors, refusal, ..State::default() });
        }
    }
    states
}
