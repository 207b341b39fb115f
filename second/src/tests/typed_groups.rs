//! The line of a group where it ends: its days, and its gases.

use super::typed::said;

/// The groups of a text of this year, and its head.
fn groups(year: u64, lines: &str) -> String {
    let text = format!("farm 7 {year} 1\n{lines}");
    said(&text).lines().filter(|line| line.starts_with("group ")).collect::<Vec<_>>().join("\n")
}

#[test]
fn groups_and_their_days() {
    let cattle = |days: u64| format!("cattle {days} 0 0 0 0 0 0 0 100\n");
    assert_eq!(groups(2010, "close\n"), "");
    assert_eq!(groups(2010, "soil 1\n"), "");
    assert_eq!(groups(2010, "heading 1 heifer 0\n"), "group 1 heifer, 0 head: no days");
    assert_eq!(groups(2010, "heading 1 3 0\nclose\n"), "group 1 heifer, 0 head: no days");
    let both = format!(
        "heading 12 milking 40\nenteric 31 0 0\n{}enteric 28 0 0\nheading 13 dry 9\nclose\n",
        cattle(365)
    );
    let wanted = "group 12 milking, 40 head: enteric 59 days of 365, cattle 365 days\n\
        group 13 dry, 9 head: no days";
    assert_eq!(groups(2010, &both), wanted);
    let wanted = "group 12 milking, 40 head: enteric 59 days of 366, cattle 365 days of 366\n\
        group 13 dry, 9 head: no days";
    assert_eq!(groups(2012, &both), wanted);
    let pig = |days: u64| format!("heading 1 pig 7\npig {days} 0 0 0 0 0 0 0 0 0 0 0\n");
    for (year, days) in
        [(1900, 365), (2000, 366), (2004, 366), (2100, 365), (2200, 365), (2011, 365)]
    {
        assert_eq!(groups(year, &pig(days)), format!("group 1 pig, 7 head: pig {days} days"));
        let other = 731 - days;
        let wanted = format!("group 1 pig, 7 head: pig {other} days of {days}");
        assert_eq!(groups(year, &pig(other)), wanted);
    }
    let twice = "heading 1 dry 3\nheading 1 dry 3\nheadng\nclose\n";
    assert_eq!(groups(2010, twice), "group 1 dry, 3 head: no days");
}

/// Document 01's P5, P6 (as W3 has it) and P7, and 40 cows of P5.
#[test]
fn groups_and_their_gases() {
    let one = "heading 1 milking 1\nenteric 365 300 6.5\n";
    let wanted = "group 1 milking, 1 head: enteric 365 days; CH4 127.898 kg, 127.9 kg a head";
    assert_eq!(groups(2010, one), wanted);
    let forty = "heading 12 milking 40\nenteric 365 300 6.5\nclose\n";
    let wanted = "group 12 milking, 40 head: enteric 365 days; CH4 5115.903 kg, 127.9 kg a head";
    assert_eq!(groups(2010, forty), wanted);
    let cattle = "heading 2 milking 10\ncattle 365 20 16 30 3.2 0 20 80 0\n";
    let wanted = "group 2 milking, 10 head: cattle 365 days; N2O 28.762 kg, 2.9 kg a head";
    assert_eq!(groups(2010, cattle), wanted);
    let pigs = "heading 3 pig 100\npig 100 2 0.1 1 0.2 18 1 0.002 0.25 0.01 0 0\n";
    let wanted = "group 3 pig, 100 head: pig 100 days of 365; CH4 128.640 kg, 1.3 kg a head; N2O 2.851 kg, 0.0 kg a head";
    assert_eq!(groups(2010, pigs), wanted);
    let both = "heading 4 dry 10\nenteric 365 300 6.5\ncattle 365 20 16 30 3.2 0 20 80 0\n";
    let wanted = "group 4 dry, 10 head: enteric 365 days, cattle 365 days; CH4 1278.976 kg, 127.9 kg a head; N2O 28.762 kg, 2.9 kg a head";
    assert_eq!(groups(2010, both), wanted);
}

/// What is 0 is not told: no head, no feed, grazing, which is no gas.
#[test]
fn no_gas_is_no_gas() {
    let none = "heading 1 dry 0\nenteric 365 300 6.5\ncattle 365 20 16 30 3.2 0 20 80 0\n";
    assert_eq!(groups(2010, none), "group 1 dry, 0 head: enteric 365 days, cattle 365 days");
    let grazing = "heading 1 dry 9\ngrazing ontario cows 600 50\n";
    assert_eq!(groups(2010, grazing), "group 1 dry, 9 head: no days");
    // A new heading begins anew.
    let two = "heading 1 dry 1\nenteric 365 300 6.5\nheading 2 dry 1\nsoil 1\n";
    assert!(groups(2010, two).ends_with("\ngroup 2 dry, 1 head: no days"));
}

/// 50, 150, 250 and 350 g are halves of a tenth of a kilogram.
#[test]
fn a_half_a_head_goes_to_the_even_tenth() {
    for (head, ge, ch4, a_head) in [
        (1, "42.81", "0.050", "0.0"),
        (1, "128.42", "0.150", "0.2"),
        (1, "214.04", "0.250", "0.2"),
        (1, "299.65", "0.350", "0.4"),
        (2, "214.04", "0.500", "0.2"),
        (2, "299.65", "0.700", "0.4"),
        (1, "43.66", "0.051", "0.1"),
        (1, "213.18", "0.249", "0.2"),
        (1, "214.90", "0.251", "0.3"),
    ] {
        let lines = format!("heading 1 milking {head}\nenteric 1 {ge} 6.5\n");
        let wanted = format!(
            "group 1 milking, {head} head: enteric 1 days of 365; CH4 {ch4} kg, {a_head} kg a head"
        );
        assert_eq!(groups(2010, &lines), wanted);
    }
}
