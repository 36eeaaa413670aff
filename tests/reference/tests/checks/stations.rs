//! The stations and their counts (E5): Z and its refusals, whose change a record
//! is, and the limit of each station. Spaces stand for tabs in the records.

use reference::{Desk, Stations, COUNT_LIMIT, STATIONS};

use crate::paper::lines;
use crate::prepared::{check, check_on, prepared, typed_by};
use crate::random::Random;

/// Asserts the replies to some records.
pub fn replies(desk: &mut Desk, records: &str, replies: &str) {
    let mut out = Vec::new();
    desk.feed(&lines(records), &mut out);
    let got = String::from_utf8(out).expect("replies are text");
    let expected = String::from_utf8(lines(replies)).expect("text");
    assert_eq!(got, expected, "to {records}");
}

/// A desk that station 2 has made, with a count for each station.
fn busy() -> Desk {
    typed_by(2, [10, 11, 12, 13, 14, 15, 16, 17])
}

/// "A digit above 7", and a refusal leaves the station.
#[test]
fn every_digit() {
    for digit in 0..10 {
        let reply = if digit < 8 { "ok\n" } else { "no\t18\n" };
        let mut desk = busy();
        let mut out = Vec::new();
        desk.feed(format!("Z\t{digit}\n").as_bytes(), &mut out);
        assert_eq!(String::from_utf8(out).unwrap(), reply);
        let named = if digit < 8 { digit } else { 2 };
        let counts = [10, 11, 12, 13, 14, 15, 16, 17];
        assert_eq!(*desk.stations(), Stations::new(named, counts));
        check_on(busy(), format!("Z\t{digit}").as_bytes(), reply);
    }
}

/// "Before the first, it is station 0", and each has its own count.
#[test]
fn each_station_has_its_own_count() {
    let mut desk = Desk::new();
    replies(&mut desk, "T\nX A 2 1 2 1\nT", "ok 0\nok 2\nok 1");
    replies(
        &mut desk,
        "Z 5\nT\nI A B\nI A C\nT",
        "ok\nok 0\nok 2\nok 2\nok 2",
    );
    replies(
        &mut desk,
        "Z 0\nT\nZ 5\nT\nZ 7\nT",
        "ok\nok 1\nok\nok 2\nok\nok 0",
    );
    assert_eq!(*desk.stations(), Stations::new(7, [1, 0, 0, 0, 0, 2, 0, 0]));
}

/// "E, F, I, K and C raise the count by one", X too; the others don't.
#[test]
fn changes_are_those_of_the_named_station() {
    for (records, done, counted) in [
        ("P C 2 1\nM 1 1\nE", "ok 1", true),
        ("F A A C", "ok 4", true),
        ("I A C", "ok 3", true),
        ("K A 2 C", "ok 4", true),
        ("C A", "ok", true),
        ("X C 2 1 2 1", "ok 2", true),
        ("S A A", "ok 1", false),
        ("W A 12", "ok 122 3", false),
        ("L B", "P B 3 2\nM 1 2\nM 2 1\nE", false),
        ("U", "D 2 1 16\nA 2 1 3\nB 3 2 2\nok 3", false),
        ("H", "no 19", false),
        ("T", "ok 12", false),
        ("Z 2", "ok", false),
        ("P C 2 1\nM 1 11\nE", "no 7 T", false),
        ("F A B C", "no 10", false),
        ("I C A", "no 9", false),
        ("K A 15 A", "no 11", false),
        ("C z", "no 8", false),
        ("X A 2 1 2 0", "no 17", false),
        ("Z 8", "no 18", false),
        ("Z", "no 1", false),
        ("E", "no 2", false),
    ] {
        let mut desk = busy();
        replies(&mut desk, records, done);
        let count = 12 + u64::from(counted);
        let counts = [10, 11, count, 13, 14, 15, 16, 17];
        assert_eq!(
            *desk.stations(),
            Stations::new(2, counts),
            "after {records}"
        );
    }
}

/// 1, then 2, then 18; the plan is dropped and the station stays.
#[test]
fn an_open_plan_refuses_z() {
    for (record, reply) in [
        ("Z 3", "no 2"),
        ("Z 9", "no 2"),
        ("Z 2", "no 2"),
        ("Z 10", "no 1"),
    ] {
        let mut desk = busy();
        let before = desk.stations().clone();
        replies(&mut desk, &format!("P C 2 1\nM 1 1\n{record}"), reply);
        assert_eq!(
            (desk.stations(), desk.open_plan()),
            (&before, None),
            "{record}"
        );
        replies(&mut desk, "E\nL C\nT", "no 2\nno 9\nok 12");
    }
}

/// Refusal 16 goes by the named station's count, whatever the others have.
#[test]
fn one_station_at_its_limit_leaves_the_others_free() {
    let full = || typed_by(2, [0, 0, COUNT_LIMIT, 0, 0, COUNT_LIMIT - 1, 0, 0]);
    for record in ["F A A A", "I A A", "K A 0 A", "C A", "X A 2 1 2 1"] {
        check_on(full(), record.replace(' ', "\t").as_bytes(), "no\t16\n");
    }
    for station in ["Z 0", "Z 1", "Z 3", "Z 7"] {
        let mut desk = full();
        replies(&mut desk, station, "ok");
        replies(&mut desk, "I A C\nT", "ok 3\nok 1");
        replies(&mut desk, "Z 2\nI A C\nT", "ok\nno 16\nok 4000000000");
    }
    let mut desk = full();
    replies(
        &mut desk,
        "Z 5\nC A\nC B\nT",
        "ok\nok\nno 16\nok 4000000000",
    );
    replies(
        &mut desk,
        "P A 2 1\nM 1 1\nE\nU",
        "no 16\nD 2 1 16\nB 3 2 2\nok 2",
    );
    replies(&mut desk, "Z 6\nP A 2 1\nM 1 1\nE\nT", "ok\nok 1\nok 1");
    // station 0 at its limit
    let mut desk = prepared(COUNT_LIMIT);
    replies(&mut desk, "I A C\nZ 4\nI A C\nT", "no 16\nok\nok 3\nok 1");
}

/// A long random run beside a table of eight numbers.
#[test]
fn counts_beside_a_table() {
    let mut random = Random::new(51);
    let (mut desk, mut named, mut counts) = (prepared(3), 0, [0; STATIONS]);
    counts[0] = 3;
    for _ in 0..2000 {
        let digit = random.below(10);
        match random.below(4) {
            0 if digit < 8 => {
                replies(&mut desk, &format!("Z {digit}"), "ok");
                named = digit;
            }
            0 => replies(&mut desk, &format!("Z {digit}"), "no 18"),
            1 => {
                replies(&mut desk, "I A C", "ok 3");
                counts[named] += 1;
            }
            2 => replies(&mut desk, "I H C", "no 9"),
            _ => replies(&mut desk, "T", &format!("ok {}", counts[named])),
        }
        assert_eq!(*desk.stations(), Stations::new(named as u8, counts));
    }
    assert!(counts.iter().all(|count| *count > 10), "{counts:?}");
}

/// Z on the prepared desk, whose count is that of station 0.
#[test]
fn z_counts_no_change() {
    check("Z 0", "ok");
    let mut desk = prepared(3);
    replies(
        &mut desk,
        "Z 0\nZ 0\nT\nZ 6\nT\nZ 0\nT",
        "ok\nok\nok 3\nok\nok 0\nok\nok 3",
    );
}
