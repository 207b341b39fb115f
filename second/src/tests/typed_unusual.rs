//! Unusual values: at both ends of each usual range and beside them, by class and column, and how many are told.

use super::typed::{said, unusual, verdict, MILKING};

/// A class; a line with a blank; what is said before the value, and its unit; the values below, at and above the ends (`-` where the field has
/// none); the range in words.
const ROWS: &str = "\
milking|enteric 1 _ 6.5|enteric, GE|MJ|99.99 100.00 650.00 650.01|for milking is 100.00 to 650.00
dry|enteric 1 _ 6.5|enteric, GE|MJ|59.99 60.00 400.00 400.01|for dry is 60.00 to 400.00
heifer|enteric 1 _ 6.5|enteric, GE|MJ|14.99 15.00 350.00 350.01|for heifer is 15.00 to 350.00
milking|enteric 1 300 _|enteric, Ym|per cent|2.99 3.00 9.00 9.01|is 3.00 to 9.00
heifer|enteric 1 300 _|enteric, Ym|per cent|2.99 3.00 9.00 9.01|is 3.00 to 9.00
milking|cattle 1 _ 20 3 2 0 20 80 0|cattle, feed|kg|4.99 5.00 35.00 35.01|for milking is 5.00 to 35.00
dry|cattle 1 _ 20 0 0 0 20 80 0|cattle, feed|kg|2.99 3.00 22.00 22.01|for dry is 3.00 to 22.00
heifer|cattle 1 _ 20 0 0 0 20 80 0|cattle, feed|kg|0.49 0.50 20.00 20.01|for heifer is 0.50 to 20.00
milking|cattle 1 30 _ 5 2 0 20 80 0|cattle, protein|per cent|5.99 6.00 26.00 26.01|is 6.00 to 26.00
dry|cattle 1 20 _ 0 0 0 20 80 0|cattle, protein|per cent|5.99 6.00 26.00 26.01|is 6.00 to 26.00
milking|cattle 1 30 20 _ 2 0 20 80 0|cattle, milk|kg|2.99 3.00 70.00 70.01|for milking is 3.00 to 70.00
dry|cattle 1 20 20 _ 3 0 20 80 0|cattle, milk|kg|- 0.00 0.00 0.01|for dry is 0.00
heifer|cattle 1 20 20 _ 3 0 20 80 0|cattle, milk|kg|- 0.00 0.00 0.01|for heifer is 0.00
milking|cattle 1 30 20 10 _ 0 20 80 0|cattle, milk protein|per cent|1.99 2.00 5.00 5.01|is 2.00 to 5.00
heifer|cattle 1 20 20 0 0 _ 20 80 0|cattle, gain|g|- 0 1500 1501|is 0 to 1500
pig|pig 1 _ 0.1 1 0.2 18 1 0.002 0.25 0.01 0 0|pig, feed|kg|0.29 0.30 8.00 8.01|is 0.30 to 8.00
pig|pig 1 2 _ 1 0.2 18 1 0.002 0.25 0.01 0 0|pig, VS excretion||0.0399 0.0400 0.2000 0.2001|is 0.0400 to 0.2000
pig|pig 1 2 0.1 _ 0.2 18 1 0.002 0.25 0.01 0 0|pig, VS factor||0.799 0.800 1.200 1.201|is 0.800 to 1.200
pig|pig 1 2 0.1 1 _ 18 1 0.002 0.25 0.01 0 0|pig, MCF||- 0.000 0.500 0.501|is 0.000 to 0.500
pig|pig 1 2 0.1 1 0.2 _ 1 0.002 0.25 0.01 0 0|pig, protein|per cent|9.99 10.00 26.00 26.01|is 10.00 to 26.00
pig|pig 1 2 0.1 1 0.2 18 _ 0.002 0.25 0.01 0 0|pig, N factor||0.499 0.500 1.200 1.201|is 0.500 to 1.200
pig|pig 1 2 0.1 1 0.2 18 1 _ 0.25 0.01 0 0|pig, direct EF||- 0.00000 0.01000 0.01001|is 0.00000 to 0.01000
pig|pig 1 2 0.1 1 0.2 18 1 0.002 _ 0.01 0 0|pig, volatilised part||- 0.000 0.700 0.701|is 0.000 to 0.700
pig|pig 1 2 0.1 1 0.2 18 1 0.002 0.25 _ 0 0|pig, volatilised EF||- 0.00000 0.02000 0.02001|is 0.00000 to 0.02000
pig|pig 1 2 0.1 1 0.2 18 1 0.002 0.25 0.01 _ 0|pig, leached part||- 0.000 0.300 0.301|is 0.000 to 0.300
pig|pig 1 2 0.1 1 0.2 18 1 0.002 0.25 0.01 0 _|pig, leached EF||- 0.00000 0.01500 0.01501|is 0.00000 to 0.01500
dry|grazing ontario cows _ 0|grazing, live weight|kg|349 350 900 901|for cows is 350 to 900
milking|grazing 1 heifers _ 0|grazing, live weight|kg|149 150 650 651|for heifers is 150 to 650
heifer|grazing 1 calves _ 0|grazing, live weight|kg|29 30 350 351|for calves is 30 to 350
milking|grazing 1 3 _ 0|grazing, live weight|kg|29 30 350 351|for calves is 30 to 350";

#[test]
fn both_ends_of_each_usual_range() {
    assert_eq!(ROWS.lines().count(), 30);
    for row in ROWS.lines() {
        let cells: Vec<&str> = row.split('|').collect();
        let [class, line, what, unit, values, range] = cells[..] else { panic!("{row}") };
        let values: Vec<&str> = values.split(' ').collect();
        let told = |value: &str| {
            let line = line.replace('_', value);
            let text = format!("farm 7 2010 1\nheading 12 {class} 40\n{line}\nclose\n");
            assert!(verdict(&text).starts_with("closed: 4 written, "), "{text}");
            unusual(&text)
        };
        assert_eq!((told(values[1]), told(values[2])), (String::new(), String::new()), "{row}");
        for value in [values[0], values[3]].into_iter().filter(|&value| value != "-") {
            let value_said = format!("{value} {unit}").trim_end().to_string();
            let wanted = format!("line 3: unusual: {what} {value_said}: usual {range}\n");
            assert_eq!(told(value), wanted, "{row}");
        }
    }
}

#[test]
fn milk_protein_is_looked_at_where_there_is_milk() {
    let told = |milk: &str| {
        unusual(&format!("farm 7 2010 1\nheading 1 dry 1\ncattle 1 20 20 {milk} 8 0 20 80 0\n"))
    };
    assert_eq!(told("0"), "");
    let wanted = "line 3: unusual: cattle, milk 0.01 kg: usual for dry is 0.00\n\
        line 3: unusual: cattle, milk protein 8.00 per cent: usual is 2.00 to 5.00\n";
    assert_eq!(told("0.01"), wanted);
}

/// In the order of the fields, with all decimals whatever was typed, at their place among what is said.
#[test]
fn they_are_told_and_go_in() {
    let text = format!("{MILKING}enteric 31 3 20\nsoil\nenteric 31 340 6.5\n");
    // 300 x 2000 x 40 x 31 / 55650 is 13369.27, and 34000 x 650 x 40 x 31 / 55650 is 492434.86.
    let wanted = "line 3: unusual: enteric, GE 3.00 MJ: usual for milking is 100.00 to 650.00\n\
        line 3: unusual: enteric, Ym 20.00 per cent: usual is 3.00 to 9.00\n\
        line 4: refused 4: soil takes 1 value, and 0 are here; expected area\n\
        group 12 milking, 40 head: enteric 62 days of 365; CH4 505.804 kg, 12.6 kg a head\n\
        no close: the text ends without one\n\
        not closed: 4 written, 1 refused, 0 not read, 0 without heading, 2 unusual\n";
    assert_eq!(said(&text), wanted);
    let closed = verdict("farm 7 2010 1\nheading 12 milking 1\nenteric 31 3 6.5\nclose\n");
    assert_eq!(closed, "closed: 4 written, 0 refused, 0 not read, 0 without heading, 1 unusual");
}

#[test]
fn of_a_line_that_failed_nothing_is_unusual() {
    for line in [
        "enteric 367 3 6.5",
        "enteric 1 3 20.01",
        "enteric 1 3",
        "enteric 1 3 x",
        "enteric 1 3 6 1",
    ] {
        let text = format!("{MILKING}{line}\nheadng\nenteric 1 3 6.5\n");
        assert_eq!(unusual(&text), "", "{line}");
        assert!(verdict(&text).ends_with(", 0 unusual"));
    }
    // Nothing is usual or not of these.
    let others =
        "energy 1 1000000 10000000\nsoil 100000\ntillage 1 1 1 100 100000\nheading 13 dry 20000\n";
    assert_eq!(unusual(&format!("{MILKING}{others}")), "");
}

#[test]
fn twenty_unusual_values_and_a_count() {
    let text = |count: usize| format!("{MILKING}{}close\n", "enteric 1 3 6.5\n".repeat(count));
    let shown = |count: usize| unusual(&text(count)).lines().count();
    assert_eq!((shown(19), shown(20), shown(21), shown(50)), (19, 20, 20, 20));
    assert!(!said(&text(20)).contains(" more unusual"));
    let end = "\nand 1 more unusual\nclosed: 24 written, 0 refused, 0 not read, 0 without heading, 21 unusual\n";
    assert!(said(&text(21)).ends_with(end));
}
