//! The fields of each kind as people name them: decimals, units, the words of choices, and what is expected.

use crate::model::kind;
use crate::model::record::version_with;

/// How people name a field: the decimals and the unit that they say (none is empty), what is expected of it, and the words for 1, 2 .. where it is a
/// choice.
pub struct Spoken {
    pub name: &'static str,
    pub decimals: usize,
    pub unit: &'static str,
    pub choices: &'static [&'static str],
    range: &'static str,
}

const fn number(
    name: &'static str,
    decimals: usize,
    unit: &'static str,
    range: &'static str,
) -> Spoken {
    Spoken { name, decimals, unit, choices: &[], range }
}

const fn whole(name: &'static str, range: &'static str) -> Spoken {
    number(name, 0, "", range)
}

const fn choice(
    name: &'static str,
    choices: &'static [&'static str],
    range: &'static str,
) -> Spoken {
    Spoken { name, decimals: 0, unit: "", choices, range }
}

const DAYS: Spoken = whole("days", "1 to 366");
const FARM_NUMBER: Spoken = whole("farm number", "0 to 4294967295");
const YEAR: Spoken = whole("year", "1900 to 2200");
const FARM: [Spoken; 3] = [
    FARM_NUMBER,
    YEAR,
    whole("warming set", "1 or 2 (or the CH4 and the N2O factor in its place)"),
];
const FARM_2: [Spoken; 4] =
    [FARM_NUMBER, YEAR, whole("CH4 factor", "1 to 1000"), whole("N2O factor", "1 to 1000")];

pub const CLASSES: [&str; 4] = ["milking", "dry", "heifer", "pig"];
const HEADING: [Spoken; 3] = [
    whole("group", "1 to 65535"),
    choice("class", &CLASSES, "1 to 4"),
    whole("head", "0 to 20000"),
];
const ENTERIC: [Spoken; 3] = [
    DAYS,
    number("GE", 2, "MJ", "0 to 1000.00 MJ per head and day"),
    number("Ym", 2, "per cent", "0 to 20.00 per cent"),
];

const fn share(name: &'static str) -> Spoken {
    number(name, 2, "per cent", "0 to 100.00 per cent")
}

const PROTEIN: Spoken = number("protein", 2, "per cent", "0 to 40.00 per cent");
const CATTLE: [Spoken; 9] = [
    DAYS,
    number("feed", 2, "kg", "0 to 50.00 kg per head and day"),
    PROTEIN,
    number("milk", 2, "kg", "0 to 80.00 kg per head and day"),
    number("milk protein", 2, "per cent", "0 to 8.00 per cent"),
    number("gain", 0, "g", "0 to 3000 g per head and day"),
    share("solid share"),
    share("liquid share"),
    share("pasture share"),
];

const fn part(name: &'static str) -> Spoken {
    number(name, 3, "", "0 to 1.000")
}

const fn emission(name: &'static str) -> Spoken {
    number(name, 5, "", "0 to 0.10000")
}

const PIG: [Spoken; 12] = [
    DAYS,
    number("feed", 2, "kg", "0 to 10.00 kg per head and day"),
    number("VS excretion", 4, "", "0 to 0.5000"),
    number("VS factor", 3, "", "0 to 2.000"),
    part("MCF"),
    PROTEIN,
    number("N factor", 3, "", "0 to 2.000"),
    emission("direct EF"),
    part("volatilised part"),
    emission("volatilised EF"),
    part("leached part"),
    emission("leached EF"),
];
const ENERGY: [Spoken; 3] = [
    whole("source", "1 to 8 (the documents give no names)"),
    number("amount", 1, "units", "0 to 1000000.0 units"),
    number("factor", 0, "g CO2 per unit", "0 to 10000000 g CO2 per unit"),
];
const AREA: Spoken = number("area", 2, "ha", "0 to 100000.00 ha");
const SOIL: [Spoken; 1] = [AREA];
const CLOSE: [Spoken; 1] = [whole("records before it", "0 to 65535")];

const ZONES: [&str; 9] = [
    "boreal-shield-west",
    "atlantic-maritime",
    "boreal-plains",
    "boreal-shield-east",
    "mixedwood-plains",
    "semiarid-prairies",
    "montane-cordillera",
    "pacific-maritime",
    "subhumid-prairies",
];
const TEXTURES: [&str; 3] = ["coarse", "medium", "fine"];
const CHANGES: [&str; 6] = [
    "intensive-to-reduced",
    "reduced-to-no",
    "intensive-to-no",
    "reduced-to-intensive",
    "no-to-reduced",
    "no-to-intensive",
];
const TILLAGE: [Spoken; 5] = [
    choice("zone", &ZONES, "1 to 9"),
    choice("texture", &TEXTURES, "1 to 3"),
    choice("change", &CHANGES, "1 to 6"),
    whole("years", "1 to 100"),
    AREA,
];

const REGIONS: [&str; 7] =
    ["atlantic", "quebec", "ontario", "manitoba", "saskatchewan", "alberta", "british-columbia"];
pub const COLUMNS: [&str; 3] = ["cows", "heifers", "calves"];
const GRAZING: [Spoken; 4] = [
    choice("region", &REGIONS, "1 to 7"),
    choice("column", &COLUMNS, "1 to 3"),
    number("live weight", 0, "kg", "0 to 2000 kg"),
    share("fraction"),
];

impl Spoken {
    pub fn is_choice(&self) -> bool {
        !self.choices.is_empty()
    }

    /// What is expected of a value, with all the words of a choice.
    pub fn expected(&self) -> String {
        match self.choices {
            [] => self.range.to_string(),
            words => format!("{} ({})", self.range, words.join(", ")),
        }
    }

    /// A value of the book as people say it, with all its decimals.
    pub fn said(&self, value: u128) -> String {
        with_decimals(value, self.decimals)
    }

    /// The same with its unit, where it has one.
    pub fn said_with_unit(&self, value: u128) -> String {
        match self.unit {
            "" => self.said(value),
            unit => format!("{} {unit}", self.said(value)),
        }
    }

    /// A value of the book as it is typed again: a choice by its word.
    pub fn typed(&self, value: u128) -> String {
        match self.choices {
            [] => self.said(value),
            words => words[value as usize - 1].to_string(),
        }
    }
}

/// So many of a unit's decimal parts, with a point before them.
pub fn with_decimals(value: u128, decimals: usize) -> String {
    if decimals == 0 {
        return value.to_string();
    }
    let scale = 10_u128.pow(decimals as u32);
    format!("{}.{:0decimals$}", value / scale, value % scale)
}

/// The fields of a kind where so many values are given, in order; a kind that the book has not has none.
pub fn spoken_of(kind: u64, count: usize) -> &'static [Spoken] {
    match kind::of(kind) {
        Some(kind::FARM) if version_with(kind::FARM, count) == 2 => &FARM_2,
        Some(kind::FARM) => &FARM,
        Some(kind::HEADING) => &HEADING,
        Some(kind::ENTERIC) => &ENTERIC,
        Some(kind::CATTLE) => &CATTLE,
        Some(kind::PIG) => &PIG,
        Some(kind::ENERGY) => &ENERGY,
        Some(kind::SOIL) => &SOIL,
        Some(kind::CLOSE) => &CLOSE,
        Some(kind::TILLAGE) => &TILLAGE,
        Some(kind::GRAZING) => &GRAZING,
        _ => &[],
    }
}

/// The names of a kind's fields, in each of its versions.
pub fn names_of(kind: u64) -> String {
    let names = |fields: &[Spoken]| fields.iter().map(|f| f.name).collect::<Vec<_>>().join(", ");
    match kind::of(kind) {
        Some(kind::FARM) => format!("{}, or {}", names(&FARM), names(&FARM_2)),
        _ => names(spoken_of(kind, 0)),
    }
}

/// How many values a kind takes, in words.
pub fn count_of(kind: u64) -> String {
    match (kind::of(kind), spoken_of(kind, 0).len()) {
        (Some(kind::FARM), _) => format!("{} or {} values", FARM.len(), FARM_2.len()),
        (_, 1) => "1 value".to_string(),
        (_, count) => format!("{count} values"),
    }
}
