//! The lines of U in their order (E2), on desks written out and on random ones.
//! Spaces stand for tabs in the records and replies.

use std::collections::BTreeMap;

use reference::{Desk, Plan, Shape, Stations};

use crate::paper::lines;
use crate::random::{shapes, Random};

const SLOTS: &[u8; 8] = b"ABCDEFGH";

/// The power of ψ that keeps so many pairs: ψ itself has 3, its square 4, and
/// so on up to the 14th with 16.
fn powered(pairs: usize) -> Plan {
    let word = |text: &str| text.as_bytes().to_vec();
    let psi = [("111", "11"), ("112", "121"), ("12", "122")];
    let psi = psi.map(|(from, to)| (word(from), word(to)));
    let psi = Plan::keep(Shape { arity: 2, roots: 1 }, &psi).expect("a plan");
    let plan = psi.power(pairs as i64 - 2).expect("a power");
    assert_eq!(plan.size(), pairs);
    plan
}

/// A desk whose slots, from A on, hold plans of so many pairs, and nothing
/// where the number is 0.
fn desk(pairs: &[usize]) -> Desk {
    let slots = SLOTS.iter().zip(pairs);
    let held = slots.filter(|(_, pairs)| **pairs > 0);
    let held = held.map(|(slot, pairs)| (*slot, powered(*pairs)));
    Desk::with_contents(held.collect(), None, Stations::default())
}

/// What the desk replies to U.
fn survey(desk: &mut Desk) -> String {
    let mut out = Vec::new();
    desk.feed(b"U\n", &mut out);
    String::from_utf8(out).expect("replies are text")
}

/// The letters of U's lines, in their order.
fn letters(desk: &mut Desk) -> String {
    let reply = survey(desk);
    let slots = reply.lines().filter(|line| !line.starts_with("ok"));
    slots.map(|line| &line[..1]).collect()
}

/// Asserts the replies to some records, and then the letters of U.
fn check(desk: &mut Desk, records: &str, replies: &str, order: &str) {
    let mut out = Vec::new();
    desk.feed(&lines(records), &mut out);
    let got = String::from_utf8(out).expect("replies are text");
    assert_eq!(got.into_bytes(), lines(replies), "to {records}");
    assert_eq!(letters(desk), order, "after {records}");
}

#[test]
fn the_most_pairs_come_first() {
    let reply = survey(&mut desk(&[3, 0, 16, 4]));
    assert_eq!(reply, "C\t2\t1\t16\nD\t2\t1\t4\nA\t2\t1\t3\nok\t3\n");
    // Numbers, not digits: 16 and 10 before 9.
    assert_eq!(letters(&mut desk(&[9, 3, 10, 16])), "DCAB");
    assert_eq!(letters(&mut desk(&[3, 4, 5, 6, 7, 8, 9, 10])), "HGFEDCBA");
    assert_eq!(letters(&mut desk(&[10, 9, 8, 7, 6, 5, 4, 3])), "ABCDEFGH");
    assert_eq!(letters(&mut desk(&[6, 9, 3, 10, 5, 4, 8, 7])), "DBGHAEFC");
}

#[test]
fn equal_ones_come_by_their_letters() {
    assert_eq!(letters(&mut desk(&[4; 8])), "ABCDEFGH");
    assert_eq!(letters(&mut desk(&[3, 5, 3, 5, 3, 5, 3, 5])), "BDFHACEG");
    assert_eq!(letters(&mut desk(&[4, 4, 16, 3, 16, 4, 3, 16])), "CEHABFDG");
    // The first letter and the last, with less and with more between them.
    assert_eq!(letters(&mut desk(&[5, 0, 0, 0, 0, 0, 0, 5])), "AH");
    assert_eq!(letters(&mut desk(&[5, 3, 3, 4, 3, 3, 4, 5])), "AHDGBCEF");
    assert_eq!(letters(&mut desk(&[3, 5, 5, 5, 5, 5, 5, 3])), "BCDEFGAH");
}

#[test]
fn no_slot_and_one_slot() {
    assert_eq!(survey(&mut Desk::new()), "ok\t0\n");
    for (place, slot) in SLOTS.iter().enumerate() {
        let mut pairs = [0; 8];
        pairs[place] = 5;
        let line = format!("{}\t2\t1\t5\nok\t1\n", char::from(*slot));
        assert_eq!(survey(&mut desk(&pairs)), line);
    }
}

#[test]
fn an_emptied_slot_goes_and_the_others_stay_in_order() {
    let mut desk = desk(&[4, 4, 16, 3, 16, 4, 3, 16]);
    check(&mut desk, "C E", "ok", "CHABFDG");
    check(&mut desk, "C A", "ok", "CHBFDG");
    check(&mut desk, "C A", "no 9", "CHBFDG");
    check(&mut desk, "C G\nC C\nC D", "ok\nok\nok", "HBF");
    check(&mut desk, "C H\nC F", "ok\nok", "B");
    check(&mut desk, "C B", "ok", "");
    assert_eq!(survey(&mut desk), "ok\t0\n");
}

/// The pairs are those of the plan that is kept last, and a refusal keeps
/// nothing.
#[test]
fn a_plan_that_is_replaced_changes_its_place() {
    let mut desk = desk(&[3, 4, 5]);
    check(&mut desk, "", "", "CBA");
    check(&mut desk, "K A 4 A", "ok 6", "ACB");
    check(&mut desk, "K B 1 C", "ok 4", "ABC");
    check(&mut desk, "I A H", "ok 6", "AHBC");
    check(&mut desk, "K A 0 A", "ok 1", "HBCA");
    check(&mut desk, "F H B B", "ok 4", "HBCA");
    check(&mut desk, "F H H B", "ok 10", "BHCA");
    check(&mut desk, "F B H B", "ok 14", "BHCA");
    check(&mut desk, "F B H B", "no 11", "BHCA");
    check(&mut desk, "I B D\nF B D H", "ok 14\nok 1", "BDCAH");
    check(&mut desk, "P B 2 1\nM 1 1\nE", "ok 1", "DCABH");
    check(&mut desk, "P B 2 1\nM 11 12\nE", "no 7 F", "DCABH");
    let typed = "P B 2 1\nM 111 111\nM 112 112\nM 121 122\nM 122 121\nE";
    check(&mut desk, typed, "ok 3", "DCBAH");
}

/// Four plans of four pairs each: neither n nor r has a say.
#[test]
fn the_shape_does_not_matter() {
    let still = |arity, roots| Plan::identity(Shape { arity, roots });
    let held = [
        (b'B', still(9, 4)),
        (b'C', still(2, 4)),
        (b'E', powered(4)),
        (b'F', still(5, 4)),
    ];
    let mut desk = Desk::with_contents(held.into(), None, Stations::default());
    let reply = "B\t9\t4\t4\nC\t2\t4\t4\nE\t2\t1\t4\nF\t5\t4\t4\nok\t4\n";
    assert_eq!(survey(&mut desk), reply);
}

/// "2, .. any other record while one is open", and the open plan is dropped.
#[test]
fn an_open_plan_refuses_u() {
    let mut desk = desk(&[3, 4]);
    check(&mut desk, "P C 2 1\nM 1 1\nU", "no 2", "BA");
    check(&mut desk, "E", "no 2", "BA");
}

/// Random desks of all shapes: the number of lines comes last, each held slot
/// has one line, and of two lines in a row the first has more pairs, or as many
/// and the earlier letter.
#[test]
fn random_desks() {
    let mut random = Random::new(41);
    let all = shapes();
    let (mut ties, mut falls) = (0, 0);
    for _ in 0..300 {
        let most = *random.pick(&[6, 6, 12, 40]);
        let mut held = BTreeMap::new();
        for slot in SLOTS {
            if !random.one_in(4) {
                let shape = *random.pick(&all);
                held.insert(*slot, random.plan(shape, most));
            }
        }
        let mut desk = Desk::with_contents(held.clone(), None, Stations::default());
        let reply = survey(&mut desk);
        let mut rows: Vec<&str> = reply.lines().collect();
        assert_eq!(rows.pop(), Some(&format!("ok\t{}", held.len())[..]));
        for pair in rows.windows(2) {
            let [(one, more), (other, fewer)] = [pair[0], pair[1]].map(slot_and_pairs);
            assert!(more > fewer || more == fewer && one < other, "{reply}");
            ties += usize::from(more == fewer);
            falls += usize::from(more > fewer && one > other);
        }
        let listed: BTreeMap<u8, &str> = rows.iter().map(|row| (row.as_bytes()[0], *row)).collect();
        assert_eq!(listed.len(), rows.len(), "{reply}");
        let lines = held.iter().map(|(slot, plan)| (*slot, line(*slot, plan)));
        let lines: BTreeMap<u8, String> = lines.collect();
        assert!(lines.keys().eq(listed.keys()) && lines.values().eq(listed.values()));
    }
    assert!(ties > 200 && falls > 200, "{ties} {falls}");
}

fn slot_and_pairs(row: &str) -> (&str, usize) {
    let (slot, rest) = row.split_once('\t').expect("fields");
    let (_, pairs) = rest.rsplit_once('\t').expect("fields");
    (slot, pairs.parse().expect("a number"))
}

/// "`slot⇥n⇥r⇥pairs`".
fn line(slot: u8, plan: &Plan) -> String {
    let Shape { arity, roots } = plan.shape();
    format!("{}\t{arity}\t{roots}\t{}", char::from(slot), plan.size())
}
