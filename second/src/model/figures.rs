//! Document 01, "The arithmetic": every figure in whole grams, computed in 128 bits so that nothing can overflow.

/// The six figures of a line, and the six sums of a book; CO2 alone may be below zero (document 02, W7). Grazing is CO2e from the start (W10).
#[derive(Clone, Copy, Debug, Default, PartialEq, Eq)]
pub struct Figures {
    pub ch4: u64,
    pub n2o: u64,
    pub co2: i64,
    pub excreted: u64,
    pub land: u64,
    pub grazing: u64,
}

impl Figures {
    pub fn plus(self, more: Figures) -> Figures {
        Figures {
            ch4: self.ch4 + more.ch4,
            n2o: self.n2o + more.n2o,
            co2: self.co2 + more.co2,
            excreted: self.excreted + more.excreted,
            land: self.land + more.land,
            grazing: self.grazing + more.grazing,
        }
    }

    /// As eight bytes each say them.
    pub fn in_order(self) -> [u64; 6] {
        [self.ch4, self.n2o, word(self.co2), self.excreted, self.land, self.grazing]
    }
}

/// The eight bytes of a signed figure, which are its two's complement, as an unsigned number.
pub fn word(figure: i64) -> u64 {
    u64::from_be_bytes(figure.to_be_bytes())
}

/// The signed figure that eight bytes say.
pub fn signed(word: u64) -> i64 {
    i64::from_be_bytes(word.to_be_bytes())
}

/// Grams of the records of kinds 3 to 5 under one heading, which give no CO2 and no CO2e.
#[derive(Clone, Copy, Debug, Default, PartialEq, Eq)]
pub struct Subtotal {
    pub ch4: u64,
    pub n2o: u64,
    pub excreted: u64,
    pub land: u64,
}

impl Subtotal {
    pub fn plus(self, more: Figures) -> Subtotal {
        assert_eq!((more.co2, more.grazing), (0, 0), "a subtotal has neither");
        Subtotal {
            ch4: self.ch4 + more.ch4,
            n2o: self.n2o + more.n2o,
            excreted: self.excreted + more.excreted,
            land: self.land + more.land,
        }
    }

    /// The six figures of its line.
    pub fn figures(self) -> Figures {
        let Subtotal { ch4, n2o, excreted, land } = self;
        Figures { ch4, n2o, co2: 0, excreted, land, grazing: 0 }
    }
}

/// round(n/d): the nearest whole number, a half going to the even one (document 02, W8).
pub fn round(n: u128, d: u128) -> u64 {
    let (below, twice_the_rest) = (n / d, 2 * (n % d));
    let up = twice_the_rest > d || (twice_the_rest == d && below % 2 == 1);
    u64::try_from(below + u128::from(up)).expect("a figure fits 64 bits")
}

/// Enteric CH4; `v` is days, GE, Ym.
pub fn enteric(head: u128, v: &[u128]) -> Figures {
    let (days, ge, ym) = (v[0], v[1], v[2]);
    Figures { ch4: round(ge * ym * head * days, 55_650), ..Figures::default() }
}

/// X, micrograms of nitrogen per head and day, which may be below zero; `v` is a kind 4 record's fields.
pub fn x_of(v: &[u128]) -> i128 {
    let [feed, protein, milk, milk_protein, gain] = [1, 2, 3, 4, 5].map(|i: usize| v[i] as i128);
    160 * feed * protein - 157 * milk * milk_protein - 27_000 * gain
}

/// Cattle nitrogen; direct and indirect N2O are rounded each for itself.
pub fn cattle(head: u128, v: &[u128]) -> Figures {
    let (days, solid, liquid) = (v[0], v[6], v[7]);
    let x = u128::try_from(x_of(v)).expect("refusal 11 keeps X from falling below zero");
    let excreted = round(x * head * days, 1_000_000);
    let n = u128::from(excreted);
    let direct = round(n * 79 * (solid + liquid) * 11, 700_000_000);
    let indirect = round(n * (47 * solid + 63 * liquid) * 11, 700_000_000);
    Figures { n2o: direct + indirect, excreted, ..Figures::default() }
}

/// The pig CH4 product before its division, which reaches 1.47 × 10^19.
pub fn pig_ch4_product(head: u128, v: &[u128]) -> u128 {
    let (days, feed, vs_excretion, vs_factor, mcf) = (v[0], v[1], v[2], v[3], v[4]);
    let vs_mg = u128::from(round(feed * vs_excretion * vs_factor, 1_000));
    vs_mg * mcf * head * days * 201
}

/// Pig manure; `v` is a kind 5 record's fields.
pub fn pig(head: u128, v: &[u128]) -> Figures {
    let (days, feed, protein, n_factor, direct_ef) = (v[0], v[1], v[5], v[6], v[7]);
    let (volatilised, volatilised_ef, leached, leached_ef) = (v[8], v[9], v[10], v[11]);
    let excreted = round(feed * protein * n_factor * head * days * 7, 62_500_000);
    let n = u128::from(excreted);
    let direct = round(n * direct_ef * 11, 700_000);
    let parts = volatilised * volatilised_ef + leached * leached_ef;
    let indirect = round(n * parts * 11, 700_000_000);
    Figures {
        ch4: round(pig_ch4_product(head, v), 625_000_000),
        n2o: direct + indirect,
        co2: 0,
        excreted,
        land: round(n * (1_000 - volatilised - leached), 1_000),
        grazing: 0,
    }
}

/// Grams of CO2 alone.
pub fn carbon(grams: i64) -> Figures {
    Figures { co2: grams, ..Figures::default() }
}

/// Energy CO2; `v` is source, amount, factor.
pub fn energy(v: &[u128]) -> Figures {
    carbon(positive(round(v[1] * v[2], 10)))
}

/// Organic soil CO2; `v` is the area.
pub fn soil(v: &[u128]) -> Figures {
    carbon(positive(round(v[0] * 550_000, 3)))
}

/// An amount as a signed figure.
pub fn positive(grams: u64) -> i64 {
    i64::try_from(grams).expect("a figure fits 63 bits")
}
