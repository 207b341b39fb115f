//! The member's page: figures, rows and bars of the sample and of a farm that takes up more than it gives off, by hand; and pages without figures.

use crate::makers::desk::many_groups;
use crate::makers::farms::farm;
use crate::makers::plain::sample;
use crate::model::kind;
use crate::model::page::{figure, kg, page};
use crate::model::record::record_of;

#[test]
fn kilograms() {
    assert_eq!(kg(0), "0<small>.000</small>");
    assert_eq!(kg(-7), "\u{2212}0<small>.007</small>");
    assert_eq!(kg(18_241_034), "18\u{202f}241<small>.034</small>");
    assert_eq!(kg(-100_000_000_005), "\u{2212}100\u{202f}000\u{202f}000<small>.005</small>");
    assert_eq!(kg(999_999), "999<small>.999</small>");
    assert_eq!((figure(0), figure(1)), (String::new(), "0<small>.001</small>".to_string()));
}

fn bar(rect: &str, zero: &str) -> String {
    let svg = "<svg viewBox=\"0 0 1000 8\" preserveAspectRatio=\"none\" aria-hidden=\"true\">";
    format!("{svg}<rect{rect}></rect>{zero}</svg></td></tr></tbody>\n")
}

/// 826,954 g × 21 are 17,366,034 g, and 434,150.85 a head; the unit of the bars is 18,242 g.
#[test]
fn the_sample_by_hand() {
    let made = page(&sample());
    let text = made.printed;
    assert_eq!((made.said.as_str(), made.right), ("", true));
    assert!(text.contains("<title>Farm 7, 2010: greenhouse gas statement</title>"));
    assert!(text.contains("<p id=\"total\" class=\"sum\">18\u{202f}241<small>.034</small> <span>"));
    assert!(text.contains("CO<sub>2</sub>e is 21 &times; CH<sub>4</sub> + 310 &times; N"));
    let row = concat!(
        "<tbody><tr data-group=\"12\"><th><b>Group 12</b> milking</th><td data-l=\"head\">40</td>",
        "<td data-l=\"CO&#8322;e per head\">434<small>.151</small></td><td data-l=\"nitrogen excreted\"></td>",
        "<td data-l=\"nitrogen for land\"></td><td data-l=\"CH&#8324;\">826<small>.954</small></td>",
        "<td data-l=\"N&#8322;O\"></td><td data-l=\"grazing, CO&#8322;e\"></td>",
        "<td class=\"co2e\">17\u{202f}366<small>.034</small></td></tr>\n<tr class=\"bars\"><td colspan=\"9\">",
    );
    assert!(
        text.contains(&format!("{row}{}", bar(" x=\"0\" y=\"0\" width=\"951\" height=\"8\"", "")))
    );
    let own = "<b>The farm as a whole</b> energy, soil, tillage</th><td class=\"co2e\">875<small>.000</small></td></tr>\n";
    let last = bar(" x=\"951\" y=\"0\" width=\"48\" height=\"8\"", "");
    assert!(text.contains(&format!("{own}<tr class=\"bars\"><td colspan=\"9\">{last}<tfoot>")));
    assert!(text.contains("<tr data-kind=\"6\"><th><b>Energy</b> </th>"));
    assert!(text.contains("<tr data-kind=\"5\"><th><b>Pig manure</b> none in the book</th>"));
    assert!(text
        .contains("<p id=\"verdict\">Farm 7, 2010. Made from the closed book of 6 records.</p>\n"));
    assert_eq!(page(&[sample(), vec![0]].concat()).printed, text);
}

/// A farm record, these, and a right close.
fn book(farm: &[u64], records: &[(u8, &[u64])]) -> Vec<u8> {
    let mut book = record_of(kind::FARM, farm);
    records.iter().for_each(|(kind, values)| book.extend(record_of(*kind, values)));
    [book, record_of(kind::CLOSE, &[records.len() as u64 + 1])].concat()
}

/// A cow grazes 570 kg (W10); 225 mg a square metre on 90 ha are 742,500 g less (W7): lo is −172,500 g, the unit 743 g, and 0 stands at 232.
#[test]
fn a_farm_that_takes_up() {
    let tillage: (u8, &[u64]) = (kind::TILLAGE, &[7, 3, 1, 1, 9_000]);
    let grazing: (u8, &[u64]) = (kind::GRAZING, &[3, 1, 600, 5_000]);
    let cow: (u8, &[u64]) = (kind::HEADING, &[5, 1, 1]);
    let none: (u8, &[u64]) = (kind::HEADING, &[6, 4, 0]);
    let text = page(&book(&[7, 2010, 25, 298], &[cow, grazing, none, tillage])).printed;
    assert!(text.contains("class=\"sum\">\u{2212}172<small>.500</small> <span>"));
    assert!(text.contains("<b>Change of tillage</b> takes up</th>"));
    assert!(text.contains("<b>Grazing</b> already CO<sub>2</sub>e</th>"));
    let zero = "<line class=\"zero\" x1=\"232\" y1=\"0\" x2=\"232\" y2=\"8\"></line>";
    assert!(text.contains(&bar(" x=\"232\" y=\"0\" width=\"767\" height=\"8\"", zero)));
    assert_eq!(
        text.matches(&bar(" class=\"up\" x=\"0\" y=\"1\" width=\"999\" height=\"6\"", zero))
            .count(),
        2
    );
    let pigs =
        "<b>Group 6</b> pig</th><td data-l=\"head\">0</td><td data-l=\"CO&#8322;e per head\"></td>";
    assert!(text.contains(pigs));
    assert!(
        text.contains("as much as 25 kilograms of") && text.contains("oxide as much as 298.\n")
    );
}

/// Without a head's worth of anything, and without a group.
#[test]
fn rows_without_figures() {
    let text = page(&book(&[7, 2010, 1], &[(kind::HEADING, &[6, 4, 3])])).printed;
    assert!(text.contains("<td data-l=\"CO&#8322;e per head\">0<small>.000</small></td>"));
    assert!(text.contains(&bar(" x=\"0\" y=\"0\" width=\"0\" height=\"8\"", "")));
    assert!(!text.contains("The farm as a whole"));
    let text = page(&book(&[7, 2010, 1], &[])).printed;
    assert!(!text.contains("data-group") && text.matches("none in the book").count() == 7);
    assert_eq!(page(&many_groups(4_094)).printed.matches("data-group").count(), 4_094);
}

#[test]
fn pages_without_figures() {
    let made = page(&sample()[..50]);
    assert!(!made.right && made.printed.contains("<title>Farm 7, 2010: not for members</title>"));
    let why = "<h2>Why</h2>\n<p>the book ends inside a record, which needs 7 more bytes\n</p>\n";
    assert!(made.printed.contains(why));
    assert!(made
        .printed
        .contains("Farm 7, 2010. Made from a book that is not closed, of 4 records.</p>"));
    let made = page(&[]);
    assert!(made.printed.contains("<h1>No farm</h1>") && made.said.starts_with("this is empty"));
    assert!(made.printed.contains(
        "<p id=\"verdict\">No farm. Made from a book that is not closed, of 0 records.</p>"
    ));
    let made = page(&[&sample()[..32], &[0, 4, 1, 99, 0, 0]].concat());
    assert!(made.printed.contains("<p>record 3: the kind is 99; it must be at most 10\n</p>\n"));
    assert!(made
        .printed
        .contains("Farm 7, 2010. Made from a book that is refused after 3 records.</p>"));
    for index in 0..200 {
        let made = page(&farm(29, index));
        assert_eq!(made.right, made.printed.contains("<table"));
        assert_eq!(made.right, !made.printed.contains("Not for members"));
    }
}
