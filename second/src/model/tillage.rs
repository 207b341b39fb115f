//! Document 02, W7: what a change of tillage binds or sets free, from table A4-4 of source document 002 as it is printed.

use crate::model::figures::{carbon, positive, round, Figures};

/// lumCmax in g per square metre, and k in ten-thousandths.
type Pair = (i64, u128);

/// By zone, texture (coarse, medium, fine) and change: intensive to reduced, reduced to none, intensive to none, and each of them back.
const TABLE: [[[Pair; 6]; 3]; 9] = [
    // Boreal Shield West
    [
        [(143, 262), (441, 284), (584, 306), (-143, 262), (-441, 284), (-584, 306)],
        [(217, 253), (478, 282), (695, 311), (-217, 253), (-478, 282), (-695, 311)],
        [(155, 258), (398, 331), (553, 403), (-155, 258), (-398, 331), (-553, 403)],
    ],
    // Atlantic Maritime
    [
        [(232, 282), (25, 252), (257, 222), (-232, 282), (-25, 252), (-257, 222)],
        [(246, 227), (241, 219), (486, 211), (-246, 227), (-241, 219), (-486, 211)],
        [(349, 285), (184, 291), (533, 298), (-349, 285), (-184, 291), (-533, 298)],
    ],
    // Boreal Plains
    [
        [(221, 270), (450, 283), (671, 296), (-221, 270), (-450, 283), (-671, 296)],
        [(233, 219), (464, 238), (698, 258), (-233, 219), (-464, 238), (-698, 258)],
        [(163, 180), (467, 231), (630, 283), (-163, 180), (-467, 231), (-630, 283)],
    ],
    // Boreal Shield East
    [
        [(277, 295), (665, 268), (941, 242), (-277, 295), (-665, 268), (-941, 242)],
        [(238, 266), (311, 230), (549, 193), (-238, 266), (-311, 230), (-549, 193)],
        [(206, 228), (235, 178), (441, 127), (-206, 228), (-235, 178), (-441, 127)],
    ],
    // Mixedwood Plains
    [
        [(181, 307), (435, 300), (616, 293), (-181, 307), (-435, 300), (-616, 293)],
        [(173, 262), (264, 256), (437, 250), (-173, 262), (-264, 256), (-437, 250)],
        [(197, 208), (207, 216), (404, 223), (-197, 208), (-207, 216), (-404, 223)],
    ],
    // Semiarid Prairies
    [
        [(183, 226), (316, 239), (499, 252), (-183, 226), (-316, 239), (-499, 252)],
        [(233, 193), (261, 230), (495, 266), (-233, 193), (-261, 230), (-495, 266)],
        [(268, 149), (193, 194), (462, 240), (-268, 149), (-193, 194), (-462, 240)],
    ],
    // Montane Cordillera
    [
        [(51, 141), (289, 138), (340, 135), (-51, 141), (-289, 138), (-340, 135)],
        [(446, 163), (115, 159), (561, 155), (-446, 163), (-115, 159), (-561, 155)],
        [(31, 73), (581, 101), (613, 129), (-31, 73), (-581, 101), (-613, 129)],
    ],
    // Pacific Maritime
    [
        [(105, 175), (638, 153), (743, 132), (-105, 175), (-638, 153), (-743, 132)],
        [(763, 120), (807, 131), (1570, 143), (-763, 120), (-1256, 219), (-1570, 143)],
        [(533, 91), (778, 106), (1311, 121), (-533, 91), (-441, 310), (-1311, 121)],
    ],
    // Subhumid Prairies
    [
        [(256, 230), (411, 266), (667, 302), (-256, 230), (-411, 266), (-667, 302)],
        [(331, 271), (320, 287), (651, 302), (-331, 271), (-320, 287), (-651, 302)],
        [(196, 203), (189, 230), (385, 257), (-196, 203), (-189, 230), (-385, 257)],
    ],
];

/// What stands for 1 in e^-x.
const ONE: u128 = 1_000_000_000_000;

/// The printed pair of a zone, texture and change, each counted from 1.
pub fn pair(zone: u128, texture: u128, change: u128) -> Pair {
    TABLE[zone as usize - 1][texture as usize - 1][change as usize - 1]
}

/// e^-x for x in ten-thousandths: its series up to x^20 from the inside out, each division rounded down, nothing below zero.
fn fading(x: u128) -> u128 {
    (1..=20).rev().fold(ONE, |inner, i| ONE.saturating_sub(inner * x / (10_000 * i)))
}

/// Carbon bound in the year, in mg per square metre; below zero where it is set free.
pub fn rate((lum_c_max, k): Pair, year: u128) -> i64 {
    let faded = fading(k * (year - 1)) - fading(k * year);
    let amount = round(u128::from(lum_c_max.unsigned_abs()) * faded, 1_000_000_000);
    lum_c_max.signum() * positive(amount)
}

/// CO2 for this much carbon bound on each square metre of an area: as many grams are taken from the air, to the nearest.
fn taken_up(mg: i64, area: u128) -> i64 {
    let amount = round(u128::from(mg.unsigned_abs()) * area * 11, 30);
    -mg.signum() * positive(amount)
}

/// The figures of a kind 9 record; `v` is zone, texture, change, years, area.
pub fn figures(v: &[u128]) -> Figures {
    let mg = rate(pair(v[0], v[1], v[2]), v[3]);
    carbon(taken_up(mg, v[4]))
}
