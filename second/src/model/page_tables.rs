//! The three tables of the member's page, and the bars in them.

use crate::model::figures::round;
use crate::model::kind;
use crate::model::page::{figure, kg, Book};
use crate::model::page_texts::*;
use crate::model::walk::{Entry, Line};
use crate::model::words::class_name;

const CH4: (&str, usize) = ("CH&#8324;", 0);
const N2O: (&str, usize) = ("N&#8322;O", 1);
const CO2: (&str, usize) = ("CO&#8322;", 2);
const EXCRETED: (&str, usize) = ("nitrogen excreted", 3);
const LAND: (&str, usize) = ("nitrogen for land", 4);
const GRAZING: (&str, usize) = ("grazing, CO&#8322;e", 5);

/// The columns of figures of the groups and of the sources, before CO2e.
const OF_GROUPS: [(&str, usize); 5] = [EXCRETED, LAND, CH4, N2O, GRAZING];
const OF_SOURCES: [(&str, usize); 3] = [CH4, N2O, CO2];

/// A cell for each of these figures, and the beginning of the one for CO2e.
fn cells(columns: &[(&str, usize)], figures: &[i128]) -> String {
    let cell = |&(label, place): &(&str, usize)| {
        format!("<td data-l=\"{label}\">{}</td>", figure(figures[place]))
    };
    columns.iter().map(cell).collect::<String>() + "<td class=\"co2e\">"
}

/// A row without its bar: what stands before its CO2e, and its CO2e.
type Row = (String, i128);

/// Rows with their bars, each of which begins where the last one ended.
fn with_bars(rows: &[Row], columns: usize) -> String {
    let mut sums = vec![0];
    for (_, co2e) in rows {
        sums.push(sums[sums.len() - 1] + co2e);
    }
    let (lo, hi) = (*sums.iter().min().unwrap_or(&0), *sums.iter().max().unwrap_or(&0));
    let unit = ((hi - lo + 999) / 1_000).max(1);
    let at = |sum: i128| (sum - lo) / unit;
    let row = |((front, co2e), ends): (&Row, &[i128])| {
        let (x, to) = (at(ends[0]).min(at(ends[1])), at(ends[0]).max(at(ends[1])));
        let rect = match *co2e < 0 {
            true => format!(" class=\"up\" x=\"{x}\" y=\"1\" width=\"{}\" height=\"6\"", to - x),
            false => format!(" x=\"{x}\" y=\"0\" width=\"{}\" height=\"8\"", to - x),
        };
        let zero = match (lo < 0, at(0)) {
            (true, z) => {
                format!("<line class=\"zero\" x1=\"{z}\" y1=\"0\" x2=\"{z}\" y2=\"8\"></line>")
            }
            _ => String::new(),
        };
        let svg = "<svg viewBox=\"0 0 1000 8\" preserveAspectRatio=\"none\" aria-hidden=\"true\">";
        let bar = format!("{svg}<rect{rect}></rect>{zero}</svg>");
        let cells = format!("{front}{}</td></tr>", kg(*co2e));
        format!("{cells}\n<tr class=\"bars\"><td colspan=\"{columns}\">{bar}</td></tr></tbody>\n")
    };
    rows.iter().zip(sums.windows(2)).map(row).collect()
}

/// The sums of lines, figure by figure.
fn added<'a>(lines: impl Iterator<Item = &'a Line>) -> [i128; 6] {
    let mut sums = [0; 6];
    for line in lines {
        sums.iter_mut().zip(&line.figures).for_each(|(sum, grams)| *sum += grams);
    }
    sums
}

fn lines_of<'a>(book: &'a Book, kinds: &'a [u8]) -> impl Iterator<Item = &'a Line> {
    let lines = book.entries.iter().filter_map(Entry::line);
    lines.filter(move |line| kinds.contains(&line.kind))
}

/// A heading's row: its subtotal, and what is grazed under it.
fn group_row(book: &Book, heading: &Entry, subtotal: &Line) -> Row {
    let values = heading.values();
    let (group, class, head) = (values[0], class_name(values[1] as u8), values[2]);
    let grazing = lines_of(book, &[kind::GRAZING]).filter(|line| line.group == heading.group);
    let mut figures = subtotal.figures.clone();
    figures[5] += added(grazing)[5];
    let co2e = book.co2e(&figures);
    let a_head = match head {
        0 => String::new(),
        _ => kg(round(co2e as u128, head).into()),
    };
    let front = format!("<tbody><tr data-group=\"{group}\"><th><b>Group {group}</b> {class}</th>");
    let heads =
        format!("<td data-l=\"head\">{head}</td><td data-l=\"CO&#8322;e per head\">{a_head}</td>");
    (front + &heads + &cells(&OF_GROUPS, &figures), co2e)
}

/// A row for each heading, in the book's order, and one for the farm's own records where there are any.
pub fn groups(book: &Book, entries: &[Entry]) -> String {
    let headings = entries.iter().filter(|entry| entry.kind() == kind::HEADING);
    let subtotals = entries.iter().filter_map(Entry::subtotal);
    let mut rows: Vec<Row> = headings.zip(subtotals).map(|(h, s)| group_row(book, h, s)).collect();
    let own = [kind::ENERGY, kind::SOIL, kind::TILLAGE];
    if lines_of(book, &own).next().is_some() {
        rows.push((FARM_ROW.to_string(), added(lines_of(book, &own))[2]));
    }
    let (a, b, total) = (book.ch4_factor, book.n2o_factor, &book.total.figures);
    let head = format!("{GROUPS}{a}{TIMES_CH4}{b}{GROUPS_HEAD}");
    let foot = format!("{FOOT}<td></td><td></td>{}", cells(&OF_GROUPS, total));
    head + &with_bars(&rows, 9) + &foot + &kg(total[6]) + FOOT_END
}

/// The kinds of sources with their names and words.
const SOURCE_NAMES: [(u8, &str, &str); 7] = [
    (kind::ENTERIC, "Digestion of cattle", "enteric methane"),
    (kind::CATTLE, "Cattle manure", "in store"),
    (kind::PIG, "Pig manure", ""),
    (kind::GRAZING, "Grazing", "already CO<sub>2</sub>e"),
    (kind::ENERGY, "Energy", ""),
    (kind::SOIL, "Organic soil", ""),
    (kind::TILLAGE, "Change of tillage", ""),
];

fn source_row(book: &Book, (kind, name, words): (u8, &str, &str)) -> Row {
    let figures = added(lines_of(book, &[kind]));
    let co2e = book.co2e(&figures);
    let words = match lines_of(book, &[kind]).next() {
        None => "none in the book",
        _ if kind == kind::TILLAGE && co2e < 0 => "takes up",
        _ => words,
    };
    let front = format!("<tbody><tr data-kind=\"{kind}\"><th><b>{name}</b> {words}</th>");
    (front + &cells(&OF_SOURCES, &figures), co2e)
}

/// The same total by the kinds of records.
pub fn sources(book: &Book) -> String {
    let rows: Vec<Row> = SOURCE_NAMES.iter().map(|&source| source_row(book, source)).collect();
    let total = &book.total.figures;
    let foot = format!("{FOOT}{}", cells(&OF_SOURCES, total));
    SOURCES.to_string() + &with_bars(&rows, 5) + &foot + &kg(total[6]) + FOOT_END
}

/// The gases of the total with their factors.
pub fn gases(book: &Book) -> String {
    let (a, b, total) = (book.ch4_factor, book.n2o_factor, &book.total.figures);
    let (ch4, n2o, co2, grazing) = (total[0], total[1], total[2], total[5]);
    let head = format!("{GASES}{a}{GASES_N2O}{b}{GASES_HEAD}");
    let methane = format!("{}{FACTOR}{a}{CO2E}{}", figure(ch4), kg(a * ch4));
    let oxide = format!("{GAS_N2O}{}{FACTOR}{b}{CO2E}{}", figure(n2o), kg(b * n2o));
    let dioxide = format!("{GAS_CO2}{}{GAS_CO2_FACTOR}{}", figure(co2), kg(co2));
    let last = format!("{GAS_GRAZING}{}{GAS_TOTAL}{}{FOOT_END}", kg(grazing), kg(total[6]));
    head + &methane + &oxide + &dioxide + &last
}
