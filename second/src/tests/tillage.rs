//! Document 02's W7: the printed table, the rates, both signs of CO2 in figures, sums, lines and states, and tillage in its places.

use super::typed::{record_typed, remarks};
use super::{accepted, adds, all, no_group, refused_by, under, with_group};
use crate::makers::books::after;
use crate::makers::plain::{plain_values, sample};
use crate::model::feed::Answer;
use crate::model::figures::{signed, Figures};
use crate::model::kind;
use crate::model::lister::list;
use crate::model::programs::retyped;
use crate::model::record::{number, record_of};
use crate::model::salvage::tell;
use crate::model::state::{State, CLOSED};
use crate::model::tillage::{pair, rate};
use crate::model::warming::{SET_1, SET_2};
use crate::model::why::why;

/// Table A4-4 of source document 002, copied: zone, texture, then lumCmax and k of the six changes.
const PRINT: &str = include_str!("table_a4_4.txt");

/// Every pair of the print in its order, with zone, texture and change: lumCmax, and k in ten-thousandths.
fn printed() -> Vec<([u128; 3], (i64, u128))> {
    let mut pairs = Vec::new();
    for (row, line) in (0..).zip(PRINT.lines()) {
        let words: Vec<&str> = line.split(' ').collect();
        let numbers = &words[words.len() - 12..];
        let textures = ["Coarse", "Medium", "Fine"];
        assert_eq!(words[words.len() - 13], textures[row % 3]);
        for (change, pair) in (1..).zip(numbers.chunks(2)) {
            let k = pair[1].strip_prefix("0.").unwrap().parse().unwrap();
            let place = [row as u128 / 3 + 1, row as u128 % 3 + 1, change];
            pairs.push((place, (pair[0].parse().unwrap(), k)));
        }
    }
    pairs
}

#[test]
fn the_table_is_the_printed_one() {
    let printed = printed();
    assert_eq!(printed.len(), 162);
    for ([zone, texture, change], printed) in printed {
        assert_eq!(pair(zone, texture, change), printed, "{zone} {texture} {change}");
    }
}

#[test]
fn the_print_has_two_exceptions_to_the_mirror_rule() {
    let mut exceptions = Vec::new();
    for ([zone, texture, change], (lum_c_max, k)) in printed() {
        if change > 3 {
            let (there, k_there) = pair(zone, texture, change - 3);
            assert!(there > 0 && lum_c_max < 0);
            if (lum_c_max, k) != (-there, k_there) {
                exceptions.push(([zone, texture, change], lum_c_max, k));
            }
        }
    }
    assert_eq!(exceptions, [([8, 2, 5], -1_256, 219), ([8, 3, 5], -441, 310)]);
}

fn co2(values: [u64; 5]) -> i64 {
    let made = adds(&no_group(), kind::TILLAGE, &values);
    assert_eq!(made, Figures { co2: made.co2, ..Figures::default() });
    made.co2
}

#[test]
fn worked_values() {
    let rows: [([u64; 4], i64, [i64; 3]); 5] = [
        ([1, 1, 1, 1], 3_698, [-135_593, -1_356, -13_559_333_333]),
        ([1, 3, 3, 100], 404, [-14_813, -148, -1_481_333_333]),
        ([7, 3, 1, 1], 225, [-8_250, -82, -825_000_000]),
        ([8, 2, 5, 10], -22_340, [819_133, 8_191, 81_913_333_333]),
        ([9, 3, 6, 100], -767, [28_123, 281, 2_812_333_333]),
    ];
    for ([zone, texture, change, years], mg, wanted) in rows {
        let pair = pair(zone.into(), texture.into(), change.into());
        assert_eq!(rate(pair, years.into()), mg);
        let made = [100, 1, 10_000_000].map(|area| co2([zone, texture, change, years, area]));
        assert_eq!(made, wanted);
    }
}

/// All rates of the table over a hundred years, weighed by their places: the sums were worked apart, in exact fractions.
#[test]
fn every_rate() {
    let (mut sum, mut mixed) = (0, 0);
    for (_, pair) in printed() {
        for year in 1..=100 {
            let mg = rate(pair, year);
            (sum, mixed) = (sum + mg, (31 * mixed + mg).rem_euclid(1_000_003));
            let (k, y) = (pair.1 as f64 / 10_000.0, year as f64);
            let exact = 1_000.0 * pair.0 as f64 * ((-k * (y - 1.0)).exp() - (-k * y).exp());
            assert!((mg as f64 - exact).abs() < 0.51, "{pair:?} {year}: {mg} for {exact}");
        }
    }
    assert_eq!((sum, mixed), (-438_843, 537_531));
}

#[test]
fn halves_go_to_the_even_gram_and_zero_has_no_sign() {
    for (area, grams) in [(0, 0), (1, 82), (2, 165), (3, 248), (4, 330), (5, 412)] {
        assert_eq!(co2([7, 3, 1, 1, area]), -grams);
        assert_eq!(co2([7, 3, 4, 1, area]), grams);
    }
}

#[test]
fn eight_bytes_of_a_line_in_twos_complement() {
    let reply = all(&no_group(), &record_of(kind::TILLAGE, &[1, 1, 1, 1, 100]));
    let mut wanted = vec![0, 52, 1, 9, 0, 0];
    wanted.extend([0; 16]);
    wanted.extend((-135_593_i64).to_be_bytes());
    wanted.extend([0; 24]);
    assert_eq!(reply.lines, wanted);
    assert_eq!(wanted[22..30], [255, 255, 255, 255, 255, 253, 238, 87]);
    assert_eq!(signed(number(&wanted[22..30]) as u64), -135_593);
}

#[test]
fn a_book_whose_total_is_below_zero() {
    let book = [
        &sample()[..sample().len() - 6],
        &record_of(kind::TILLAGE, &[1, 1, 1, 1, 100]),
        &record_of(kind::TILLAGE, &[8, 2, 5, 10, 1]),
        &record_of(kind::TILLAGE, &[1, 1, 1, 1, 10_000_000]),
        &record_of(kind::CLOSE, &[8]),
    ]
    .concat();
    let text = "3 12 434501 0 0 0 0 0
6 0 0 0 875000 0 0 0
3 12 392453 0 0 0 0 0
9 0 0 0 -135593 0 0 0
9 0 0 0 8191 0 0 0
9 0 0 0 -13559333333 0 0 0
16 12 826954 0 0 0 0 0
8 0 826954 0 -13558585735 0 0 0 -13541219701
closed
";
    assert_eq!(list(&book), text);
    let sums = Figures { ch4: 1, n2o: 1, co2: -1_000, ..Figures::default() };
    assert_eq!((SET_1.co2e(sums), SET_2.co2e(sums)), (-669, -681));
}

#[test]
fn the_bound_of_co2_holds_on_both_sides_of_zero() {
    for (records, most) in [(1, 10_000_000_000_000), (4_096, 40_960_000_000_000_000)] {
        let with = |co2| {
            let sums = Figures { co2, ..Figures::default() };
            State { records, sums, ..no_group() }
        };
        for co2 in [most, -most, -1, 0] {
            assert!(with(co2).in_range());
        }
        for co2 in [most + 1, -most - 1, i64::MAX, i64::MIN] {
            assert_eq!(refused_by(&with(co2), &[0]), (13, 0));
        }
    }
    let none = State { sums: Figures { co2: -1, ..Figures::default() }, ..State::default() };
    assert_eq!(refused_by(&none, &[0]), (13, 0));
    let least = State {
        records: 2,
        sums: Figures { co2: -20_000_000_000_000, ..Figures::default() },
        ..no_group()
    };
    let credit = record_of(kind::TILLAGE, &[8, 2, 3, 1, 10_000_000]);
    let reply = all(&least, &[credit, record_of(kind::CLOSE, &[3])].concat());
    assert_eq!((reply.answer, reply.state.stage), (Answer::Closed, CLOSED));
    assert!(reply.state.in_range() && reply.state.sums.co2 < -20_000_000_000_000);
}

#[test]
fn tillage_belongs_to_the_farm() {
    let record = record_of(kind::TILLAGE, &plain_values(kind::TILLAGE));
    assert_eq!(refused_by(&State::default(), &record), (6, 0));
    assert!(accepted(&no_group(), &record));
    for class in 1..=4 {
        let state = with_group(class);
        let then = after(&state, &record);
        assert_eq!((then.heading, then.subtotal), (state.heading, state.subtotal));
        assert_eq!(then.records, state.records + 1);
    }
}

#[test]
fn each_field_is_held_to_its_range() {
    let ends = [(1, 9), (1, 3), (1, 6), (1, 100), (0, 10_000_000)];
    for (position, (low, high)) in ends.into_iter().enumerate() {
        let with = |value| {
            let mut values = plain_values(kind::TILLAGE);
            values[position] = value;
            record_of(kind::TILLAGE, &values)
        };
        assert!(accepted(&under(1, 1), &with(low)) && accepted(&under(1, 1), &with(high)));
        let seven = (7, position as u8 + 1);
        assert_eq!(refused_by(&under(1, 1), &with(high + 1)), seven);
        if low > 0 {
            assert_eq!(refused_by(&under(1, 1), &with(0)), seven);
        }
    }
    let short = [vec![0, 10, 1, 9], vec![1; 8]].concat();
    assert_eq!(refused_by(&under(1, 1), &short), (4, 0));
    assert_eq!(refused_by(&under(1, 1), &[0, 4, 1, 11, 0, 0]), (3, 0));
}

#[test]
fn tillage_as_it_is_typed() {
    let record = Some(record_of(kind::TILLAGE, &[1, 2, 3, 10, 5_000]));
    for line in
        ["tillage 1 2 3 10 50", "TILLAGE 1 Medium 3 10 50.0", "9 1 2 intensive-to-no 10 50.00"]
    {
        assert_eq!(record_typed(1, line), record);
    }
    for (line, words) in [
        ("tillage 1 2 3 10\n", "refused 4: tillage takes 5 values, and 4 are here; expected zone, texture, change, years, area"),
        ("tillage 0 2 3 10 5\n", "refused 7 field 1: zone: \"0\" is out of its range; \
            expected 1 to 9 (boreal-shield-west, atlantic-maritime, boreal-plains, boreal-shield-east, \
            mixedwood-plains, semiarid-prairies, montane-cordillera, pacific-maritime, subhumid-prairies)"),
        ("tillage 1 4 3 10 5\n", "refused 7 field 2: texture: \"4\" is out of its range; expected 1 to 3 (coarse, medium, fine)"),
        ("tillage 1 2 7 10 5\n", "refused 7 field 3: change: \"7\" is out of its range; expected 1 to 6 (intensive-to-reduced, reduced-to-no, \
            intensive-to-no, reduced-to-intensive, no-to-reduced, no-to-intensive)"),
        ("tillage 1 2 3 101 5\n", "refused 7 field 4: years: \"101\" is out of its range; expected 1 to 100"),
        ("tillage 1 2 3 10 100000.01\n", "refused 7 field 5: area: \"100000.01\" is out of its range; expected 0 to 100000.00 ha"),
        ("tillage 1 course 3 10 5\n", "not read: tillage, texture: \"course\" is none of coarse, medium, fine"),
    ] {
        assert_eq!(remarks(line), format!("line 3: {words}\n"));
    }
    // The heading stays lost, and tillage needs none.
    let told = remarks("headng\ntillage 1 2 3 10 50\nenteric 1 1 1\n");
    assert!(told.ends_with(
        "\nline 5: without heading: line 3, which may have been a heading, was not read\n"
    ));
    assert_eq!(told.lines().count(), 2);
}

#[test]
fn tillage_in_the_other_tools() {
    let farm = record_of(kind::FARM, &plain_values(kind::FARM));
    let tillage = record_of(kind::TILLAGE, &[1, 2, 3, 10, 5_000]);
    let close = record_of(kind::CLOSE, &[2]);
    let book = [farm.clone(), tillage.clone(), close.clone()].concat();
    assert_eq!(
        retyped(&book).printed,
        "farm 7 2010 1\ntillage boreal-shield-west medium intensive-to-no 10 50.00\nclose 2\n"
    );
    let heading = record_of(kind::HEADING, &[5, 9, 40]);
    let ration = record_of(kind::ENTERIC, &plain_values(kind::ENTERIC));
    let saved = tell(&[farm.clone(), heading, ration, tillage].concat());
    assert_eq!(saved.book, book);
    assert!(saved.said.ends_with("2 kept, 2 dropped\n"));
    let late = record_of(kind::TILLAGE, &[1, 2, 3, 101, 5_000]);
    let (said, _) = why(&[farm.clone(), late].concat());
    let wanted = "refused 7 record 1 bytes 11 to 23 field 4 value 101 limit 100\n\
        record 1 (tillage): years is 101; it must be at most 100\n";
    assert_eq!(said, wanted);
    let (said, _) = why(&[farm, vec![0, 4, 1, 11, 0, 0]].concat());
    let wanted = "refused 3 record 1 bytes 11 to 16 value 11 limit 10\n\
        record 1: the kind is 11; it must be at most 10\n";
    assert_eq!(said, wanted);
}
