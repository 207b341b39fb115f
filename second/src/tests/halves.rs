//! Document 02's W8: every figure that can have an exact half, above an even and above an odd number, worked by hand.

use super::{adds, all, under};
use crate::makers::cases;
use crate::makers::halves::{PLACES, RECORDS};
use crate::makers::trial::Case;
use crate::model::feed::Answer;
use crate::model::figures::Figures;

fn figures(ch4: u64, n2o: u64, co2: i64, excreted: u64, land: u64) -> Figures {
    Figures { ch4, n2o, co2, excreted, land, grazing: 0 }
}

#[test]
fn worked_halves() {
    let wanted = [
        // Enteric 0.5, 1.5.
        figures(0, 0, 0, 0, 0),
        figures(2, 0, 0, 0, 0),
        // Cattle excreted 0.5, 1.5.
        figures(0, 0, 0, 0, 0),
        figures(0, 0, 0, 2, 0),
        // Direct 434.5 with indirect 276.1; 1303.5 with 828.3.
        figures(0, 434 + 276, 0, 35_000, 0),
        figures(0, 1_304 + 828, 0, 105_000, 0),
        // Direct 86.9 with indirect 60.5; 260.7 with 181.5.
        figures(0, 87 + 60, 0, 7_000, 0),
        figures(0, 261 + 182, 0, 21_000, 0),
        // Both.
        figures(0, 434 + 258, 0, 35_000, 0),
        figures(0, 1_304 + 776, 0, 105_000, 0),
        // V of 0 mg, and of 2 mg, which make 4708.2 g.
        figures(0, 0, 0, 0, 0),
        figures(4_708, 0, 0, 0, 0),
        // Pig CH4 100.5, 301.5.
        figures(100, 0, 0, 0, 0),
        figures(302, 0, 0, 0, 0),
        // Pig excreted 10.5, 3.5, and all of it for land.
        figures(0, 0, 0, 10, 10),
        figures(0, 0, 0, 4, 4),
        // Pig direct 16.5, 5.5.
        figures(0, 16, 0, 350, 350),
        figures(0, 6, 0, 350, 350),
        // Pig indirect 16.5, 5.5.
        figures(0, 16, 0, 350, 245),
        figures(0, 6, 0, 350, 315),
        // Land 0.5 of 1 g (1.12), 1.5 of 3 g (3.36).
        figures(0, 0, 0, 1, 0),
        figures(0, 0, 0, 3, 2),
        // Energy 0.5, 1.5.
        figures(0, 0, 0, 0, 0),
        figures(0, 0, 2, 0, 0),
        // Tillage 82.5, 247.5, taken up and set free.
        figures(0, 0, -82, 0, 0),
        figures(0, 0, -248, 0, 0),
        figures(0, 0, 82, 0, 0),
        figures(0, 0, 248, 0, 0),
        // Grazing 28.5, 9.5.
        Figures { grazing: 28, ..Figures::default() },
        Figures { grazing: 10, ..Figures::default() },
    ];
    for ((class, head, kind, values), wanted) in RECORDS.into_iter().zip(wanted) {
        assert_eq!(adds(&under(class, head), kind, values), wanted, "{kind} {values:?}");
    }
}

#[test]
fn halves_are_drawn_and_accepted() {
    for index in (0..40_000).filter(|index| PLACES.contains(&(index % 200))) {
        let Case::Book { state, input, .. } = cases::fresh(3, index) else { panic!("{index}") };
        assert_eq!(all(&state, &input).answer, Answer::Closed);
    }
}
