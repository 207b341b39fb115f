//! The what-if slip.

use crate::model::slip::{slip, Change, Ration};

fn plain() -> Ration {
    Ration { ge: 300.0, ym: 6.5, head: 40.0, days: 31 }
}

#[test]
fn a_slip_in_the_papers_order() {
    let made = slip(plain(), Change::Feed(1.5));
    assert_eq!(made.code, 0);
    assert_eq!(made.ration, Ration { ge: 450.0, ..plain() });
    let kg = 450.0_f64 * (6.5 / 100.0) * 40.0 * 31.0 / 55.65;
    assert_eq!(made.kg.to_bits(), kg.to_bits());
    assert_eq!(55.65_f64.to_bits(), 0x404B_D333_3333_3333);
    assert_eq!(slip(plain(), Change::Ym(20.0)).ration.ym, 20.0);
    assert_eq!(slip(plain(), Change::Head(0.5)).ration.head, 20.0);
}

#[test]
fn slips_refused() {
    let code = |ration, change| {
        let made = slip(ration, change);
        assert_eq!((made.ration.days, made.kg.to_bits()), (ration.days, 0));
        made.code
    };
    for days in [0, 367] {
        assert_eq!(code(Ration { days, ..plain() }, Change::Ym(1.0)), 14);
    }
    for x in [f64::NAN, f64::INFINITY, -1.0, 0.0, -0.0, 1e9] {
        assert_eq!(code(Ration { ge: x, ..plain() }, Change::Ym(1.0)), 14);
        assert_eq!(code(Ration { ym: x, ..plain() }, Change::Feed(1.0)), 14);
        assert_eq!(code(Ration { head: x, ..plain() }, Change::Feed(1.0)), 14);
        assert_eq!(code(plain(), Change::Feed(x)), 14);
        assert_eq!(code(plain(), Change::Ym(x)), 14);
        assert_eq!(code(plain(), Change::Head(x)), 14);
    }
    assert_eq!(code(Ration { ge: 501.0, ..plain() }, Change::Feed(2.0)), 15);
    assert_eq!(code(Ration { ge: 1.5, ..plain() }, Change::Feed(0.5)), 15);
    assert_eq!(code(Ration { head: 15_000.0, ..plain() }, Change::Head(2.0)), 15);
}
