//! Document 02's W6: both lines of each answer, the second in people's units.

use crate::makers::doubts::{doubtful, enough};
use crate::makers::plain::sample;
use crate::model::record::record_of;
use crate::model::why::why;

/// A farm record, bytes 0 to 10, and a heading of group 12 and this class, bytes 11 to 19.
fn before(class: u64) -> Vec<u8> {
    [record_of(1, &[7, 2010, 1]), record_of(2, &[12, class, 40])].concat()
}

/// What is said of a record behind the farm record and the heading.
fn of_record(class: u64, record: &[u8]) -> String {
    why(&[&before(class), record].concat()).0
}

#[test]
fn values_are_said_as_people_say_them() {
    let cattle = |place: usize, value: u64| {
        let mut values = [1, 2_000, 1_600, 3_000, 320, 0, 2_000, 8_000, 0];
        values[place] = value;
        record_of(4, &values)
    };
    let pig = |place: usize, value: u64| {
        let mut values = [100, 200, 1_000, 1_000, 200, 1_800, 1_000, 200, 250, 1_000, 0, 0];
        values[place] = value;
        record_of(5, &values)
    };
    for (class, record, first, second) in [
        (
            1,
            record_of(3, &[1, 1, 22_666]),
            "20 to 31 field 3 value 22666 limit 2000",
            "enteric, group 12): Ym is 226.66 per cent; it must be at most 20.00",
        ),
        (
            1,
            record_of(3, &[1, 100_001, 1]),
            "20 to 31 field 2 value 100001 limit 100000",
            "enteric, group 12): GE is 1000.01 MJ; it must be at most 1000.00",
        ),
        (
            1,
            record_of(3, &[0, 1, 1]),
            "20 to 31 field 1 value 0 limit 1",
            "enteric, group 12): days is 0; it must be at least 1",
        ),
        (
            2,
            cattle(1, 5_001),
            "20 to 41 field 2 value 5001 limit 5000",
            "cattle, group 12): feed is 50.01 kg; it must be at most 50.00",
        ),
        (
            2,
            cattle(4, 801),
            "20 to 41 field 5 value 801 limit 800",
            "cattle, group 12): milk protein is 8.01 per cent; it must be at most 8.00",
        ),
        (
            2,
            cattle(5, 3_001),
            "20 to 41 field 6 value 3001 limit 3000",
            "cattle, group 12): gain is 3001 g; it must be at most 3000",
        ),
        (
            2,
            cattle(6, 10_001),
            "20 to 41 field 7 value 10001 limit 10000",
            "cattle, group 12): solid share is 100.01 per cent; it must be at most 100.00",
        ),
        (
            4,
            pig(2, 5_001),
            "20 to 47 field 3 value 5001 limit 5000",
            "pig, group 12): VS excretion is 0.5001; it must be at most 0.5000",
        ),
        (
            4,
            pig(11, 10_001),
            "20 to 47 field 12 value 10001 limit 10000",
            "pig, group 12): leached EF is 0.10001; it must be at most 0.10000",
        ),
        (
            3,
            record_of(10, &[8, 1, 1, 1]),
            "20 to 29 field 1 value 8 limit 7",
            "grazing, group 12): region is 8; it must be at most 7",
        ),
        (
            3,
            record_of(10, &[1, 1, 2_001, 1]),
            "20 to 29 field 3 value 2001 limit 2000",
            "grazing, group 12): live weight is 2001 kg; it must be at most 2000",
        ),
        (
            1,
            record_of(6, &[0, 1, 1]),
            "20 to 32 field 1 value 0 limit 1",
            "energy): source is 0; it must be at least 1",
        ),
        (
            1,
            record_of(6, &[1, 10_000_001, 1]),
            "20 to 32 field 2 value 10000001 limit 10000000",
            "energy): amount is 1000000.1 units; it must be at most 1000000.0",
        ),
        (
            1,
            record_of(6, &[1, 1, 10_000_001]),
            "20 to 32 field 3 value 10000001 limit 10000000",
            "energy): factor is 10000001 g CO2 per unit; it must be at most 10000000",
        ),
        (
            1,
            record_of(7, &[10_000_001]),
            "20 to 27 field 1 value 10000001 limit 10000000",
            "soil): area is 100000.01 ha; it must be at most 100000.00",
        ),
        (
            1,
            record_of(9, &[1, 1, 1, 101, 1]),
            "20 to 32 field 4 value 101 limit 100",
            "tillage): years is 101; it must be at most 100",
        ),
        (
            1,
            record_of(2, &[13, 5, 1]),
            "20 to 28 field 2 value 5 limit 4",
            "heading): class is 5; it must be at most 4",
        ),
    ] {
        let wanted = format!("refused 7 record 2 bytes {first}\nrecord 2 ({second}\n");
        assert_eq!(of_record(class, &record), wanted);
    }
}

#[test]
fn sums_are_said_as_people_say_them() {
    let shares = record_of(4, &[1, 0, 0, 0, 0, 0, 0, 4_000, 5_000]);
    let wanted = "refused 10 record 2 bytes 20 to 41 value 9000 limit 10000\n\
        record 2 (cattle, group 12): the sum of the shares is 90.00 per cent; it must be 100.00\n";
    assert_eq!(of_record(1, &shares), wanted);
    let parts = record_of(5, &[1, 0, 0, 0, 0, 0, 0, 0, 600, 0, 500, 0]);
    let wanted = "refused 10 record 2 bytes 20 to 47 value 1100 limit 1000\n\
        record 2 (pig, group 12): the sum of the volatilised and leached parts is 1.100; it must be at most 1.000\n";
    assert_eq!(of_record(4, &parts), wanted);
    let grazing = [record_of(10, &[1, 1, 1, 6_000]), record_of(10, &[1, 1, 1, 5_000])].concat();
    let wanted = "refused 10 record 3 bytes 30 to 39 value 11000 limit 10000\n\
        record 3 (grazing, group 12): the sum of fractions with this record is 110.00 per cent; it must be at most 100.00\n";
    assert_eq!(of_record(1, &grazing), wanted);
    let days = [record_of(3, &[350, 1, 1]), record_of(3, &[31, 1, 1])].concat();
    let wanted = "refused 9 record 3 bytes 32 to 43 value 381 limit 366\n\
        record 3 (enteric, group 12): the sum of days with this record is 381; it must be at most 366\n";
    assert_eq!(of_record(1, &days), wanted);
}

/// The group is that of the heading before, for the kinds that stand under one.
#[test]
fn records_out_of_their_place() {
    let six = "out of its place: the one farm record is first; \
        enteric, cattle and grazing need a milking, dry or heifer heading, pig a pig heading";
    let enteric = record_of(3, &[1, 1, 1]);
    let alone = why(&[record_of(1, &[7, 2010, 1]), enteric.clone()].concat()).0;
    assert_eq!(alone, format!("refused 6 record 1 bytes 11 to 22\nrecord 1 (enteric): {six}\n"));
    let first = why(&enteric).0;
    assert_eq!(first, format!("refused 6 record 0 bytes 0 to 11\nrecord 0 (enteric): {six}\n"));
    let under_pigs =
        format!("refused 6 record 2 bytes 20 to 31\nrecord 2 (enteric, group 12): {six}\n");
    assert_eq!(of_record(4, &enteric), under_pigs);
    let farm = format!("refused 6 record 2 bytes 20 to 30\nrecord 2 (farm): {six}\n");
    assert_eq!(of_record(4, &record_of(1, &[7, 2010, 1])), farm);
}

#[test]
fn lengths_kinds_groups_and_counts() {
    let milk = record_of(4, &[1, 0, 0, 0, 0, 1, 0, 0, 10_000]);
    let eleven = "refused 11 record 2 bytes 20 to 41\n\
        record 2 (cattle, group 12): more nitrogen in milk and gain than in the feed\n";
    assert_eq!(of_record(1, &milk), eleven);
    for (record, first, second) in [
        (
            vec![0, 3],
            "1 record 2 bytes 20 to 21 value 3 limit 4",
            ": the length is 3; it must be at least 4",
        ),
        (
            vec![0, 4, 2, 10, 0, 0],
            "2 record 2 bytes 20 to 25 value 2 limit 1",
            " (grazing, group 12): the version is 2; it must be 1",
        ),
        (
            vec![0, 4, 1, 11, 0, 0],
            "3 record 2 bytes 20 to 25 value 11 limit 10",
            ": the kind is 11; it must be at most 10",
        ),
        (
            vec![0, 4, 1, 5, 0, 0],
            "4 record 2 bytes 20 to 25 value 4 limit 26",
            " (pig, group 12): the length is 4; it must be 26",
        ),
        (
            record_of(2, &[12, 1, 1]),
            "8 record 2 bytes 20 to 28 value 12 limit 12",
            " (heading): the group is 12; it must be above 12",
        ),
        (
            record_of(8, &[3]),
            "12 record 2 bytes 20 to 25 value 3 limit 2",
            " (close): the count is 3; it must be 2",
        ),
    ] {
        assert_eq!(of_record(1, &record), format!("refused {first}\nrecord 2{second}\n"));
    }
}

#[test]
fn unfinished_books() {
    let cut = |bytes: usize| why(&sample()[..bytes]).0;
    let next = "unfinished: the next length is not known\n\
        the book ends before its close, where another record would begin\n";
    assert_eq!((cut(0), cut(12), cut(57)), (next.to_string(), next.to_string(), next.to_string()));
    let missing = |n: u64, bytes: &str| {
        format!("unfinished: {n} bytes missing\nthe book ends inside a record, which needs {n} more {bytes}\n")
    };
    assert_eq!(cut(6), missing(5, "bytes"));
    assert_eq!(cut(9), missing(2, "bytes"));
    assert_eq!(cut(10), missing(1, "byte"));
}

#[test]
fn accepted_books() {
    let right = "accepted\nthe book is right and closed\n".to_string();
    assert_eq!(why(&sample()), (right, true));
    for behind in [1, 300] {
        let book = [sample(), vec![0; behind]].concat();
        let wanted = "accepted\nthe book is right and closed; bytes stand after its close, from byte 63 on, and change nothing\n";
        assert_eq!(why(&book), (wanted.to_string(), true));
    }
}

/// The books by chance come to every form of the second line.
#[test]
fn books_by_chance_come_to_everything() {
    let said: String = (0..enough()).map(|index| why(&doubtful(9, index)).0).collect();
    for words in [
        " MJ; it must",
        " per cent; it must",
        " kg; it must",
        " g; it must",
        " ha; it must",
        " units; it must",
        " g CO2 per unit; it must",
        "(enteric, group ",
        "(cattle, group ",
        "(pig, group ",
        "(grazing, group ",
        "(enteric): ",
        "the sum of the shares is ",
        "the sum of the volatilised and leached parts is 1.",
        "the sum of fractions with this record is 1",
        "more bytes\n",
        "needs 1 more byte\n",
        "; bytes stand after its close, from byte ",
    ] {
        assert!(said.contains(words), "{words}");
    }
}
