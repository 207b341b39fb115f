//! Document 01's arithmetic: P1 to P9, what is rounded when, the warming sets.

use super::{adds, under, COW, PIG};
use crate::model::figures::{self, pig_ch4_product, round, Figures};
use crate::model::kind;
use crate::model::warming::{SET_1, SET_2};

#[test]
fn round_takes_halves_to_the_even_number() {
    let halves: Vec<u64> = (0..9).map(|n| round(n, 2)).collect();
    assert_eq!(halves, [0, 0, 1, 2, 2, 2, 3, 4, 4]);
    let thirds: Vec<u64> = (0..7).map(|n| round(n, 3)).collect();
    assert_eq!(thirds, [0, 0, 1, 1, 1, 2, 2]);
    let quarters: Vec<u64> = (0..13).map(|n| round(n, 4)).collect();
    assert_eq!(quarters, [0, 0, 0, 1, 1, 1, 2, 2, 2, 2, 2, 3, 3]);
    assert_eq!(round(7, 1), 7);
    assert_eq!(round(14_713_200_000_000_000_000, 625_000_000), 23_541_120_000);
}

#[test]
fn p1_to_p4_enteric_halves() {
    for (product, grams) in [(27_824, 0), (27_825, 0), (27_826, 1), (83_475, 2)] {
        assert_eq!(adds(&under(1, 1), kind::ENTERIC, &[1, product, 1]).ch4, grams);
    }
}

#[test]
fn p5_enteric() {
    assert_eq!(adds(&under(1, 1), kind::ENTERIC, &[365, 30_000, 650]).ch4, 127_898);
}

#[test]
fn p6_cattle_nitrogen() {
    let made = adds(&under(1, 10), kind::CATTLE, &COW);
    assert_eq!(made, Figures { n2o: 28_762, excreted: 1_318_672, ..Figures::default() });
    assert_eq!(round(1_318_672 * 79 * 10_000 * 11, 700_000_000), 16_370);
    assert_eq!(round(1_318_672 * (47 * 2_000 + 63 * 8_000) * 11, 700_000_000), 12_392);
}

#[test]
fn p7_pig() {
    let made = adds(&under(4, 100), kind::PIG, &PIG);
    let wanted = Figures {
        ch4: 128_640,
        n2o: 1_267 + 1_584,
        co2: 0,
        excreted: 403_200,
        land: 302_400,
        grazing: 0,
    };
    assert_eq!(made, wanted);
}

#[test]
fn p8_soil() {
    assert_eq!(adds(&under(1, 1), kind::SOIL, &[100]).co2, 18_333_333);
}

#[test]
fn p9_zero_head_gives_zeros() {
    assert_eq!(adds(&under(1, 0), kind::ENTERIC, &[365, 30_000, 650]), Figures::default());
    assert_eq!(adds(&under(1, 0), kind::CATTLE, &COW), Figures::default());
    assert_eq!(adds(&under(4, 0), kind::PIG, &PIG), Figures::default());
}

#[test]
fn the_pig_product_passes_half_of_64_bits() {
    let v: Vec<u128> = [366, 1_000, 5_000, 2_000, 1_000].to_vec();
    let product = pig_ch4_product(20_000, &v);
    assert_eq!(product, 14_713_200_000_000_000_000);
    assert!(2 * product > u128::from(u64::MAX));
    let record = [366, 1_000, 5_000, 2_000, 1_000, 4_000, 2_000, 10_000, 500, 10_000, 500, 10_000];
    assert_eq!(adds(&under(4, 20_000), kind::PIG, &record).ch4, 23_541_120_000);
}

#[test]
fn the_largest_energy_record() {
    let made = adds(&under(1, 1), kind::ENERGY, &[8, 10_000_000, 10_000_000]);
    assert_eq!(made.co2, 10_000_000_000_000);
    assert_eq!(adds(&under(1, 1), kind::ENERGY, &[1, 4, 1]).co2, 0);
    assert_eq!(adds(&under(1, 1), kind::ENERGY, &[1, 6, 1]).co2, 1);
}

#[test]
fn direct_and_indirect_are_rounded_apart() {
    // 100 g of nitrogen on 8,000 of liquid: 0.632 and 0.504 make 1 + 1, not round(1.136).
    let v: Vec<u128> = [1, 625, 1_000, 0, 0, 0, 0, 8_000, 2_000].to_vec();
    let made = figures::cattle(1, &v);
    assert_eq!((made.excreted, made.n2o), (100, 1 + 1));
}

#[test]
fn both_warming_sets() {
    let sums = Figures { ch4: 2, n2o: 3, co2: 5, excreted: 7, land: 11, grazing: 13 };
    assert_eq!(SET_1.co2e(sums), 5 + 2 * 21 + 3 * 310 + 13);
    assert_eq!(SET_2.co2e(sums), 5 + 2 * 23 + 3 * 296 + 13);
}
