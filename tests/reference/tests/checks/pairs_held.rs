//! Pairs held, kept ready (E8): H and its refusals, and the sum that is noted at each
//! change beside the sum over the slots. Spaces stand for tabs in the records.

use reference::{Desk, OpenPlan, Plan, Shape, Stations, COUNT_LIMIT};

use crate::prepared::{check, check_on, prepared, typed_by};
use crate::random::{shapes, Random};
use crate::stations::replies;
use crate::stream::random_session;

/// The other way that the request names: "also the sum over the slots".
fn sum_over_slots(desk: &Desk) -> u64 {
    let plans = (b'A'..=b'H').filter_map(|slot| desk.plan(slot));
    plans.map(|plan| plan.size() as u64).sum()
}

#[test]
fn a_fresh_desk_holds_none() {
    let mut desk = Desk::new();
    replies(&mut desk, "H\nT\nH", "ok 0\nok 0\nok 0");
}

/// The prepared desk holds 3 pairs in A, 2 in B and 16 in D.
#[test]
fn each_change_moves_the_sum() {
    for (records, done, sum) in [
        ("P C 2 1\nM 1 1\nE", "ok 1", 22),
        ("P A 2 1\nM 1 1\nE", "ok 1", 19),
        // four pairs typed, of which two are kept
        (
            "P B 2 1\nM 111 121\nM 112 122\nM 121 111\nM 122 112\nE",
            "ok 2",
            21,
        ),
        ("F A A C", "ok 4", 25),
        ("F A A A", "ok 4", 22),
        ("F A A D", "ok 4", 9),
        ("I A C", "ok 3", 24),
        ("I A A", "ok 3", 21),
        ("I A D", "ok 3", 8),
        ("I D A", "ok 16", 34),
        ("K A 2 A", "ok 4", 22),
        ("K D 0 D", "ok 1", 6),
        ("K A 1 A", "ok 3", 21),
        ("K B 0 C", "ok 2", 23),
        ("C A", "ok", 18),
        ("C D", "ok", 5),
        ("C A\nC B\nC D", "ok\nok\nok", 0),
        ("X C 2 1 2 1", "ok 2", 23),
        ("X D 2 1 2 1", "ok 2", 7),
        ("X D 9 9 0 1", "ok 9", 14),
    ] {
        let mut desk = prepared(3);
        replies(&mut desk, records, done);
        assert_eq!(desk.pairs_held().number(), sum, "after {records}");
        assert_eq!(sum_over_slots(&desk), sum, "after {records}");
        replies(&mut desk, "H", &format!("ok {sum}"));
    }
}

/// Every refusal that a record can meet here; `check_on` sees to it that the sum stays.
#[test]
fn a_refusal_leaves_the_sum() {
    for (record, number) in [
        ("C", 1),
        ("E", 2),
        ("P A 2 0", 3),
        ("W A 3", 4),
        ("X A 9 9 99 1", 5),
        ("X A 2 1 99 5", 4),
        ("C I", 8),
        ("C C", 9),
        ("F A B A", 10),
        ("K A 15 A", 11),
        ("F D D A", 11),
        ("K A 1001 A", 12),
        ("X A 2 1 2 0", 17),
        ("Z 8", 18),
        ("G 0 A 1", 19),
    ] {
        check(record, &format!("no {number}"));
        let mut desk = prepared(3);
        replies(&mut desk, record, &format!("no {number}"));
        replies(&mut desk, "H", "ok 21");
    }
    for (record, answer) in [
        ("P A 2 1\nM 1 3", "no 4"),
        ("P A 2 1\nM 1 1\nM 1 1\nE", "no 6 F"),
        ("P A 2 1\nE", "no 7 F"),
        ("P A 2 1\nM 1 11\nE", "no 7 T"),
        ("P A 2 1\nM 1 1\nC B", "no 2"),
        ("P A 2 1\nM 1 1\nH", "no 2"),
    ] {
        let mut desk = prepared(3);
        replies(&mut desk, record, answer);
        replies(&mut desk, "H\nE\nH", "ok 21\nno 2\nok 21");
    }
}

/// 16 is refused behind everything else, when the result is there already. H counts no
/// change and is never refused with it.
#[test]
fn the_count_at_its_limit_leaves_the_sum() {
    for record in ["F A A A", "I A B", "K A 0 D", "C A", "X A 2 1 2 1"] {
        let line = record.replace(' ', "\t");
        check_on(prepared(COUNT_LIMIT), line.as_bytes(), "no\t16\n");
        let mut desk = prepared(COUNT_LIMIT);
        replies(&mut desk, record, "no 16");
        replies(&mut desk, "H\nT\nH", "ok 21\nok 4000000000\nok 21");
    }
    let mut desk = prepared(COUNT_LIMIT);
    replies(&mut desk, "P A 2 1\nM 1 1\nE\nH", "no 16\nok 21");
}

/// "Other stations get 19, after 1 and 2"; H needs no right and counts no change.
#[test]
fn the_order_of_h() {
    let counts = [10, 11, 12, 13, 14, 15, 16, 17];
    for station in 0..8 {
        let reply = if station == 0 { "ok 21" } else { "no 19" };
        let line = reply.replace(' ', "\t") + "\n";
        check_on(typed_by(station, counts), b"H", &line);
        check_on(typed_by(station, counts), b"H\t", "no\t1\n");
        for (records, answer) in [
            ("H", reply),
            ("H 0", "no 1"),
            ("h", "no 1"),
            ("P C 2 1\nH", "no 2"),
            ("P C 2 1\nM 1 1\nH A", "no 1"),
            ("P C 2 1\nM 1 1\nH\nE", "no 2\nno 2"),
        ] {
            let mut desk = typed_by(station, counts);
            replies(&mut desk, records, answer);
            assert_eq!(desk.open_plan(), None, "after {records}");
            assert_eq!(*desk.stations(), Stations::new(station, counts));
            assert_eq!(desk.pairs_held().number(), 21);
        }
    }
    let mut desk = typed_by(0, counts);
    let hidden: String = ('A'..='H').map(|slot| format!("G 1 {slot} 0\n")).collect();
    replies(&mut desk, &hidden, &"ok\n".repeat(8));
    replies(
        &mut desk,
        "H\nZ 1\nH\nZ 0\nH",
        "ok 21\nok\nno 19\nok\nok 21",
    );
}

/// The pairs of an open plan are in no slot, handed in or typed.
#[test]
fn an_open_plan_is_not_in_the_sum() {
    let shape = Shape { arity: 2, roots: 1 };
    let typed = [("11", "12"), ("12", "11")].map(|(from, to)| (from.into(), to.into()));
    let open = OpenPlan {
        slot: b'A',
        shape,
        typed: typed.to_vec(),
    };
    let held = [(b'A', Plan::identity(shape))];
    let mut desk = Desk::with_contents(held.into(), Some(open), Stations::default());
    assert_eq!(desk.pairs_held().number(), 1);
    replies(&mut desk.clone(), "E\nH", "ok 2\nok 2");
    replies(&mut desk, "H\nH", "no 2\nok 1");
}

/// The most that the slots can hold, and back to nothing.
#[test]
fn eight_full_slots() {
    let mut desk = Desk::new();
    for (place, slot) in ('A'..='H').enumerate() {
        // 127 splits of one belt, of which nothing joins
        let sum = 128 * (place + 1);
        replies(&mut desk, &full_plan(slot), "ok 128");
        replies(&mut desk, "H", &format!("ok {sum}"));
    }
    replies(&mut desk, "K A 0 B\nH", "ok 1\nok 897");
    for (place, slot) in ('A'..='H').enumerate() {
        let sum = if slot == 'A' { 769 } else { 128 * (7 - place) };
        replies(&mut desk, &format!("C {slot}\nH"), &format!("ok\nok {sum}"));
    }
}

/// The 128 words of seven ways, each sent to the one with all ways exchanged.
fn full_plan(slot: char) -> String {
    let word = |number: usize| -> String {
        let way = |bit: usize| if number >> bit & 1 == 0 { '1' } else { '2' };
        "1".chars().chain((0..7).rev().map(way)).collect()
    };
    let pairs = (0..128).map(|number| format!("M {} {}\n", word(number), word(127 - number)));
    format!("P {slot} 2 1\n{}E", pairs.collect::<String>())
}

/// After every line of random sessions, and of random plans of all shapes.
#[test]
fn both_ways_agree_after_every_line() {
    let mut random = Random::new(81);
    let (mut risen, mut fallen, mut told) = (0, 0, 0);
    for _ in 0..60 {
        let input = random_session(&mut random, 150);
        let mut desk = Desk::new();
        for line in input.split_inclusive(|byte| *byte == b'\n') {
            let before = desk.pairs_held().number();
            let mut out = Vec::new();
            desk.feed(line, &mut out);
            let number = desk.pairs_held().number();
            assert_eq!(number, sum_over_slots(&desk));
            risen += usize::from(number > before);
            fallen += usize::from(number < before);
            if line == b"H\n" && out.starts_with(b"ok") {
                assert_eq!(out, format!("ok\t{number}\n").into_bytes());
                told += usize::from(number > 0);
            }
        }
    }
    assert!(
        risen > 500 && fallen > 300 && told > 100,
        "{risen} {fallen} {told}"
    );
    for shape in shapes() {
        let plans = [random.plan(shape, 128), random.plan(shape, 24)];
        let sizes: usize = plans.iter().map(Plan::size).sum();
        let held = [b'A', b'H'].into_iter().zip(plans);
        let mut desk = Desk::with_contents(held.collect(), None, Stations::default());
        replies(&mut desk, "H", &format!("ok {sizes}"));
        let left = desk.plan(b'H').map_or(0, Plan::size);
        let told = format!("ok\nok {left}\nok {left}\nok\nok 0");
        replies(&mut desk, "C A\nI H H\nH\nC H\nH", &told);
    }
}
