//! The refusals of records that are right in form, and their order where two
//! conditions hold at once; what is granted next to them; and the count at its
//! limit. Spaces stand for tabs in the records.

use reference::COUNT_LIMIT;

use crate::paper::lines;
use crate::prepared::{check, check_on, prepared};

#[test]
fn order_of_the_later_conditions() {
    for (record, reply) in [
        ("P A 0 1", "no 3"),
        ("P A 1 1", "no 3"),
        ("P A 2 0", "no 3"),
        ("M 1 1", "no 2"),
        ("M  ", "no 2"),
        ("E", "no 2"),
        ("F A C A", "no 9"),
        ("F C B A", "no 9"),
        ("F A B C", "no 10"),
        ("F A D C", "no 11"),
        ("F D D D", "no 11"),
        ("I C A", "no 9"),
        ("K C 1001 A", "no 12"),
        ("K C 5 A", "no 9"),
        ("K A 15 A", "no 11"),
        ("K A -15 A", "no 11"),
        ("K D 2 A", "no 11"),
        ("S A C", "no 9"),
        ("S C A", "no 9"),
        ("S A B", "no 10"),
        ("W C 0", "no 9"),
        ("W A ", "no 4"),
        ("W A 0", "no 4"),
        ("W A 2", "no 4"),
        ("W A 1113", "no 4"),
        ("W A 11130", "no 4"),
        ("W A 110", "no 4"),
        ("W A 1x", "no 4"),
        ("W D 1113", "no 4"),
        ("W B 3", "no 4"),
        ("L C", "no 9"),
        ("C C", "no 9"),
    ] {
        check(record, reply);
    }
}

#[test]
fn granted_neighbours() {
    for (record, reply) in [
        ("F A A A", "ok 4"),
        ("I A H", "ok 3"),
        ("K D 1 C", "ok 16"),
        ("K D -1 C", "ok 16"),
        ("K B 999 C", "ok 2"),
        ("K B 0 C", "ok 2"),
        ("K A 14 A", "ok 16"),
        ("S A A", "ok 1"),
        ("S A D", "ok 0"),
        ("W A 12", "ok 122 3"),
        ("W A 11", "B 111 11 1\nB 112 121 2\nok 2"),
        ("W A 1", "B 111 11 1\nB 112 121 2\nB 12 122 3\nok 3"),
        ("W B 133", "ok 233 1"),
        ("W B 2", "ok 1 2"),
        ("C A", "ok"),
        ("T", "ok 3"),
    ] {
        check(record, reply);
    }
    check("U", "D 2 1 16\nA 2 1 3\nB 3 2 2\nok 3");
}

#[test]
fn codes_of_1024_digits() {
    let code = |length: usize| [b"W\tA\t".as_slice(), &vec![b'1'; length]].concat();
    let image = |length: usize| format!("ok\t{}\t1\n", "1".repeat(length - 1));
    check_on(prepared(3), &code(1024), &image(1024));
    check_on(prepared(3), &code(1025), "no\t4\n");
    let longer_image = [b"W\tA\t12".as_slice(), &[b'1'; 1022]].concat();
    let reply = format!("ok\t122{}\t3\n", "1".repeat(1022));
    check_on(prepared(3), &longer_image, &reply);
}

#[test]
fn the_count_at_its_limit() {
    let full = || prepared(COUNT_LIMIT);
    for record in ["F A A A", "I A A", "K A 2 A", "K A 0 A", "C A"] {
        check_on(full(), record.replace(' ', "\t").as_bytes(), "no\t16\n");
    }
    for (record, reply) in [
        ("F A B C", "no\t10\n"),
        ("F A D C", "no\t11\n"),
        ("K A 15 A", "no\t11\n"),
        ("C C", "no\t9\n"),
        ("I C A", "no\t9\n"),
        ("T", "ok\t4000000000\n"),
        ("S A A", "ok\t1\n"),
    ] {
        check_on(full(), record.replace(' ', "\t").as_bytes(), reply);
    }
    let mut desk = full();
    let mut out = Vec::new();
    let input = lines("P C 2 1\nM 1 1\nE\nL C\nE\nP C 2 1\nM 1 1\nM 1 1\nE\nP C 2 1\nE\nU");
    desk.feed(&input, &mut out);
    let replies = "no\t16\nno\t9\nno\t2\nno\t6\tF\nno\t7\tF\n\
                   D\t2\t1\t16\nA\t2\t1\t3\nB\t3\t2\t2\nok\t3\n";
    assert_eq!(String::from_utf8(out).unwrap(), replies);
    assert_eq!(desk.stations().count(), COUNT_LIMIT);
}

#[test]
fn one_change_before_the_limit() {
    let mut desk = prepared(COUNT_LIMIT - 1);
    let mut out = Vec::new();
    desk.feed(&lines("I A C\nI A C\nC C\nT"), &mut out);
    assert_eq!(out, b"ok\t3\nno\t16\nno\t16\nok\t4000000000\n");
    assert!(desk.plan(b'C').is_some());
}

/// A refusal "changes nothing else": slots and count stay.
#[test]
fn refusals_change_no_slot() {
    let mut desk = prepared(3);
    let mut before = Vec::new();
    desk.feed(&lines("U\nL A\nL B\nL D\nT"), &mut before);
    let mut refused = Vec::new();
    desk.feed(
        &lines(
            "F A B A
             F A D A
             K A 15 A
             K D 2 D
             K A 1001 A
             I C A
             P A 2 1
             M 1 11
             E
             P A 2 1
             M 1 1
             P B 2 1
             C C
             W A 10
             X",
        ),
        &mut refused,
    );
    let numbers = "10 11 11 11 12 9 7\tT 2 9 4 1";
    let expected: Vec<String> = numbers.split(' ').map(|n| format!("no\t{n}\n")).collect();
    assert_eq!(String::from_utf8(refused).unwrap(), expected.concat());
    let mut after = Vec::new();
    desk.feed(&lines("U\nL A\nL B\nL D\nT"), &mut after);
    assert_eq!(before, after);
}

/// "Operands are read before c is written, so letters may repeat."
#[test]
fn operands_are_read_first() {
    let mut desk = prepared(3);
    let mut out = Vec::new();
    desk.feed(
        &lines(
            "I A C
             F A C E
             F A C A
             L A
             I C C
             F C C C
             K C -1 C
             W C 1222",
        ),
        &mut out,
    );
    let replies = "ok 3\nok 1\nok 1\nP A 2 1\nM 1 1\nE\nok 3\nok 4\nok 4\nok 12 4\n";
    let expected = replies.replace(' ', "\t");
    assert_eq!(String::from_utf8(out).unwrap(), expected);
}
