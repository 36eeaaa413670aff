//! Who may see and touch a slot (E6): G and its refusals, the right that each record
//! needs on each slot that it names, and what U shows. Spaces stand for tabs in the
//! records.

use std::collections::BTreeMap;

use reference::{Desk, OpenPlan, Plan, Right, Rights, Shape, Stations};

use crate::paper::lines;
use crate::prepared::{check, check_on, typed_by};
use crate::random::Random;
use crate::stations::replies;

const COUNTS: [u64; 8] = [10, 11, 12, 13, 14, 15, 16, 17];

/// The prepared desk (ψ in A, another shape in B, D like A, the others empty) of a
/// station with these rights; station 5 has none at all.
fn limited(station: u8, rights: &[(u8, u8)]) -> Desk {
    let desk = typed_by(station, COUNTS);
    let mut given = Rights::default();
    for slot in b'A'..=b'H' {
        given.give(5, slot, Right::Nothing);
    }
    for (slot, right) in rights {
        given.give(station, *slot, Right::numbered(*right).expect("a right"));
    }
    let plans = (b'A'..=b'H').filter_map(|slot| Some((slot, desk.plan(slot)?.clone())));
    let stations = desk.stations().clone().with_rights(given);
    Desk::with_contents(plans.collect(), None, stations)
}

fn reply(mut desk: Desk, record: &str) -> String {
    let mut out = Vec::new();
    desk.feed(&lines(record), &mut out);
    String::from_utf8(out).expect("replies are text")
}

/// A record with its slots as a, b and c, and the right that each of them needs.
const RECORDS: &[(&str, &[(char, u8)])] = &[
    ("P a 2 1", &[('a', 2)]),
    ("P a 0 1", &[('a', 2)]),
    ("X a 2 1 2 1", &[('a', 2)]),
    ("X a 2 0 2 1", &[('a', 2)]),
    ("X a 2 1 2 0", &[('a', 2)]),
    ("X a 9 1 99 1", &[('a', 2)]),
    ("C a", &[('a', 2)]),
    ("L a", &[('a', 1)]),
    ("W a 12", &[('a', 1)]),
    ("W a 1", &[('a', 1)]),
    ("W a 3", &[('a', 1)]),
    ("S a b", &[('a', 1), ('b', 1)]),
    ("I a b", &[('a', 1), ('b', 2)]),
    ("K a 2 b", &[('a', 1), ('b', 2)]),
    ("K a 1001 b", &[('a', 1), ('b', 2)]),
    ("K a 15 b", &[('a', 1), ('b', 2)]),
    ("F a b c", &[('a', 1), ('b', 1), ('c', 2)]),
];

/// Every choice of slots for these places.
fn choices(places: usize) -> Vec<Vec<u8>> {
    (0..places).fold(vec![Vec::new()], |chosen, _| {
        let longer = |slots: &Vec<u8>| {
            let slots = slots.clone();
            b"ABCD"
                .iter()
                .map(move |slot| [&slots[..], &[*slot]].concat())
        };
        chosen.iter().flat_map(longer).collect()
    })
}

/// 20 exactly if some slot lacks what it needs, held or empty, of one shape or of
/// two, named once or more often; else the reply of a station that has all rights.
#[test]
fn every_right_on_every_slot() {
    let (mut missing, mut granted) = (0, 0);
    for (record, needs) in RECORDS {
        for slots in choices(needs.len()) {
            let mut text = record.to_string();
            for ((place, _), slot) in needs.iter().zip(&slots) {
                text = text.replace(*place, &char::from(*slot).to_string());
            }
            let free = reply(typed_by(3, COUNTS), &text);
            let named: Vec<u8> = BTreeMap::from_iter(slots.iter().map(|slot| (*slot, ())))
                .into_keys()
                .collect();
            for number in 0..3u32.pow(named.len() as u32) {
                let right = |place: u32| (number / 3u32.pow(place) % 3) as u8;
                let rights: Vec<(u8, u8)> = named.iter().copied().zip((0..).map(right)).collect();
                let has = BTreeMap::from_iter(rights.iter().copied());
                let lacks = |((_, need), slot): (&(char, u8), &u8)| has[slot] < *need;
                let lacking = needs.iter().zip(&slots).any(lacks);
                let expected = if lacking { "no\t20\n" } else { &free };
                let line = text.replace(' ', "\t");
                check_on(limited(3, &rights), line.as_bytes(), expected);
                missing += usize::from(lacking);
                granted += usize::from(!lacking);
            }
        }
    }
    assert!(missing > 1000 && granted > 300, "{missing} {granted}");
}

/// "8" of all slots comes before 20 of any.
#[test]
fn a_slot_that_is_none_comes_first() {
    for record in [
        "S A I",
        "S I A",
        "F A A I",
        "F A I A",
        "F I A A",
        "I A I",
        "I I A",
        "K A 2 I",
        "K I 2 A",
        "P I 2 1",
        "X I 2 1 2 1",
        "C I",
        "L I",
        "W I 1",
    ] {
        let line = record.replace(' ', "\t");
        check_on(limited(3, &[(b'A', 0)]), line.as_bytes(), "no\t8\n");
    }
}

/// 18, then 8, then 19; from station 0 and from another.
#[test]
fn the_order_of_g() {
    for (record, from_zero, from_three) in [
        ("G 1 A 1", "ok", "no 19"),
        ("G 7 H 0", "ok", "no 19"),
        ("G 3 A 2", "ok", "no 19"),
        ("G 0 A 2", "no 19", "no 19"),
        ("G 0 A 0", "no 19", "no 19"),
        ("G 1 I 1", "no 8", "no 8"),
        ("G 0 I 1", "no 8", "no 8"),
        ("G 0 a 1", "no 8", "no 8"),
        ("G 8 A 1", "no 18", "no 18"),
        ("G 8 I 1", "no 18", "no 18"),
        ("G 9 I 0", "no 18", "no 18"),
        ("G 9 I 3", "no 1", "no 1"),
        ("G 1 A 3", "no 1", "no 1"),
        ("G 0 A 9", "no 1", "no 1"),
    ] {
        for (station, answer) in [(0, from_zero), (3, from_three)] {
            let answer = answer.replace(' ', "\t") + "\n";
            let line = record.replace(' ', "\t");
            check_on(limited(station, &[]), line.as_bytes(), &answer);
        }
    }
    check("G 1 A 1", "ok");
}

/// "G itself needs no right", and it counts nothing.
#[test]
fn g_changes_rights_alone() {
    let mut desk = limited(0, &[]);
    replies(&mut desk, "G 5 A 1\nG 6 H 0\nT", "ok\nok\nok 10");
    let (rights, before) = (desk.stations().rights(), limited(0, &[]));
    for station in 0..8 {
        for slot in b'A'..=b'H' {
            let expected = match (station, slot) {
                (5, b'A') => Right::Read,
                (6, b'H') => Right::Nothing,
                _ => before.stations().rights().of(station, slot),
            };
            assert_eq!(rights.of(station, slot), expected, "{station} {slot}");
        }
    }
    assert_eq!(desk.stations().counts(), COUNTS);
    assert_eq!(desk.plan(b'A'), before.plan(b'A'));
    // what was taken is given back, and the desk is as it was
    replies(&mut desk, "G 5 A 0\nG 6 H 2", "ok\nok");
    assert_eq!(desk.stations(), before.stations());
}

/// While a plan is open G is number 2, drops the plan and gives nothing.
#[test]
fn an_open_plan_refuses_g() {
    for (record, answer) in [
        ("G 1 A 0", "no 2"),
        ("G 0 A 0", "no 2"),
        ("G 8 I 0", "no 2"),
        ("G 1 A 3", "no 1"),
    ] {
        let mut desk = limited(0, &[]);
        replies(&mut desk, &format!("P C 2 1\nM 1 1\n{record}"), answer);
        assert_eq!(desk.stations(), limited(0, &[]).stations(), "{record}");
        replies(&mut desk, "E\nL C\nT", "no 2\nno 9\nok 10");
    }
}

/// E needs no right: P did, and a desk handed in may have a plan
/// open for a slot that its station may not even read.
#[test]
fn the_end_of_a_plan_needs_no_right() {
    let mut rights = Rights::default();
    rights.give(3, b'A', Right::Nothing);
    let open = OpenPlan {
        slot: b'A',
        shape: Shape { arity: 2, roots: 1 },
        typed: Vec::new(),
    };
    let stations = Stations::new(3, COUNTS).with_rights(rights);
    let mut desk = Desk::with_contents(BTreeMap::new(), Some(open), stations);
    replies(&mut desk, "M 1 1\nE\nT\nU\nL A", "ok 1\nok 14\nok 0\nno 20");
    replies(
        &mut desk,
        "Z 2\nU\nL A",
        "ok\nA 2 1 1\nok 1\nP A 2 1\nM 1 1\nE",
    );
}

/// "U shows only readable slots", and its number is theirs.
#[test]
fn u_shows_readable_slots() {
    for (rights, shown) in [
        ([2, 2, 2], "D 2 1 16\nA 2 1 3\nB 3 2 2\nok 3"),
        ([1, 1, 1], "D 2 1 16\nA 2 1 3\nB 3 2 2\nok 3"),
        ([0, 1, 2], "D 2 1 16\nB 3 2 2\nok 2"),
        ([1, 0, 0], "A 2 1 3\nok 1"),
        ([2, 2, 0], "A 2 1 3\nB 3 2 2\nok 2"),
        ([0, 0, 0], "ok 0"),
    ] {
        let [a, b, d] = rights;
        let rights = [(b'A', a), (b'B', b), (b'C', 0), (b'D', d)];
        replies(&mut limited(3, &rights), "U", shown);
    }
    replies(&mut limited(0, &[]), "Z 5\nU\nT", "ok\nok 0\nok 15");
}

/// Station 0 has all rights, whatever the others have.
#[test]
fn station_0_always_has_2() {
    let mut desk = limited(0, &[]);
    let given = (1..8).flat_map(|station| {
        let slots = b'A'..=b'H';
        slots.map(move |slot| format!("G {station} {} 0\n", char::from(slot)))
    });
    let given: String = given.collect();
    replies(&mut desk, &given, &"ok\n".repeat(56));
    let all = "P E 2 1\nM 1 1\nE\nF A E F\nI A G\nK A 2 H\nX C 2 1 2 1\nC C\nS A D\nW A 12";
    let answers = "ok 1\nok 3\nok 3\nok 4\nok 2\nok\nok 0\nok 122 3";
    replies(&mut desk, all, answers);
    let refused = "no 20\n".repeat(10);
    let all = "P E 2 1\nF A E F\nI A G\nK A 2 H\nX C 2 1 2 1\nC C\nS A D\nW A 12\nL A\nC H";
    replies(&mut desk, "Z 1\nU", "ok\nok 0");
    replies(&mut desk, all, &refused);
}

/// A long random run beside a table of the rights: each gift shows in a record that
/// needs 1 and in one that needs 2.
#[test]
fn rights_beside_a_table() {
    let mut random = Random::new(61);
    let (mut desk, mut table) = (Desk::new(), [[2; 8]; 8]);
    for _ in 0..3000 {
        let (station, slot, right) = (random.below(9), random.below(9), random.below(3));
        let letter = char::from(b'A' + slot as u8);
        let answer = match (station, slot) {
            (8, _) => "no 18",
            (_, 8) => "no 8",
            (0, _) => "no 19",
            _ => "ok",
        };
        replies(&mut desk, &format!("G {station} {letter} {right}"), answer);
        if answer == "ok" {
            table[station][slot] = right;
        }
        let (one, place) = (random.below(8), random.below(8));
        let letter = char::from(b'A' + place as u8);
        let right = table[one][place];
        let read = if right > 0 { "no 9" } else { "no 20" };
        let written = if right > 1 { "no 9" } else { "no 20" };
        let records = format!("Z {one}\nL {letter}\nC {letter}\nG 2 {letter} 0");
        let zero = if one == 0 { "ok" } else { "no 19" };
        replies(
            &mut desk,
            &records,
            &format!("ok\n{read}\n{written}\n{zero}"),
        );
        if one == 0 {
            table[2][place] = 0;
        }
        replies(&mut desk, "Z 0", "ok");
    }
    for right in 0..3 {
        let others = table[1..].iter().flatten();
        let found = others.filter(|has| **has == right).count();
        assert!(found > 5, "{found} of {right}");
    }
}

/// The plan that a station kept stays where it is when its right is taken, and others
/// see it.
#[test]
fn a_right_taken_between_two_turns() {
    let mut desk = Desk::new();
    replies(&mut desk, "Z 1\nX A 2 1 2 1\nU", "ok\nok 2\nA 2 1 2\nok 1");
    replies(&mut desk, "Z 0\nG 1 A 0\nZ 1", "ok\nok\nok");
    replies(&mut desk, "U\nL A\nC A\nT", "ok 0\nno 20\nno 20\nok 1");
    replies(&mut desk, "Z 0\nG 1 A 1\nZ 1", "ok\nok\nok");
    replies(&mut desk, "U\nC A\nI A B", "A 2 1 2\nok 1\nno 20\nok 2");
    let plan = desk.plan(b'A').map(Plan::size);
    assert_eq!(plan, Some(2));
}
