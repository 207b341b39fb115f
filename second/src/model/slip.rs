//! Document 01, "The what-if slip", in double precision, each operation rounded once in the paper's order.

#[derive(Clone, Copy, Debug, PartialEq)]
pub struct Ration {
    pub ge: f64,
    pub ym: f64,
    pub head: f64,
    pub days: u16,
}

#[derive(Clone, Copy, Debug, PartialEq)]
pub enum Change {
    Feed(f64),
    Ym(f64),
    Head(f64),
}

/// Code 0, 14 or 15, the ration handed back, and kg of CH4.
#[derive(Clone, Copy, Debug, PartialEq)]
pub struct Slip {
    pub code: u8,
    pub ration: Ration,
    pub kg: f64,
}

fn ge_fits(ge: f64) -> bool {
    (1.0..=1000.0).contains(&ge)
}

fn ym_fits(ym: f64) -> bool {
    (0.5..=20.0).contains(&ym)
}

fn head_fits(head: f64) -> bool {
    (1.0..=20000.0).contains(&head)
}

fn ration_fits(ration: &Ration) -> bool {
    let days_fit = (1..=366).contains(&ration.days);
    ge_fits(ration.ge) && ym_fits(ration.ym) && head_fits(ration.head) && days_fit
}

fn change_fits(change: Change) -> bool {
    match change {
        Change::Feed(factor) | Change::Head(factor) => (0.5..=2.0).contains(&factor),
        Change::Ym(ym) => ym_fits(ym),
    }
}

fn changed(mut ration: Ration, change: Change) -> Ration {
    match change {
        Change::Feed(factor) => ration.ge *= factor,
        Change::Ym(ym) => ration.ym = ym,
        Change::Head(factor) => ration.head *= factor,
    }
    ration
}

pub fn slip(given: Ration, change: Change) -> Slip {
    if !ration_fits(&given) || !change_fits(change) {
        return Slip { code: 14, ration: given, kg: 0.0 };
    }
    let ration = changed(given, change);
    if !ration_fits(&ration) {
        return Slip { code: 15, ration: given, kg: 0.0 };
    }
    let kg = (((ration.ge * (ration.ym / 100.0)) * ration.head) * f64::from(ration.days)) / 55.65;
    Slip { code: 0, ration, kg }
}
