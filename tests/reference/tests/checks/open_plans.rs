//! Refusals around an open plan: every one of them drops it, and the checks of
//! E come in their order. Spaces stand for tabs in the records.

use reference::session;

use crate::paper::lines;

/// The pairs an open plan must have to be closed with `ok⇥1`.
fn open_identity(then: &str) -> Vec<u8> {
    [
        lines("P A 2 1\nM 11 11\nM 12 12"),
        then.replace(' ', "\t").into(),
        b"\n".to_vec(),
        lines("E\nT"),
    ]
    .concat()
}

/// "Any refusal drops an open plan": the E after it is number 2.
#[test]
fn every_refusal_drops_an_open_plan() {
    for (record, reply) in [
        ("", "no\t1\n"),
        ("X", "no\t1\n"),
        ("P A 2", "no\t1\n"),
        ("M 1", "no\t1\n"),
        ("P A 2 1", "no\t2\n"),
        ("P z 0 0", "no\t2\n"),
        ("T", "no\t2\n"),
        ("U", "no\t2\n"),
        ("H", "no\t2\n"),
        ("H ", "no\t1\n"),
        ("H 0", "no\t1\n"),
        ("Z 1", "no\t2\n"),
        ("Z 9", "no\t2\n"),
        ("Z 10", "no\t1\n"),
        ("G 1 A 1", "no\t2\n"),
        ("G 9 z 0", "no\t2\n"),
        ("G 1 A 3", "no\t1\n"),
        ("L A", "no\t2\n"),
        ("L z", "no\t2\n"),
        ("C A", "no\t2\n"),
        ("S A A", "no\t2\n"),
        ("W A 1", "no\t2\n"),
        ("F A A A", "no\t2\n"),
        ("I A A", "no\t2\n"),
        ("K A 1001 A", "no\t2\n"),
        ("K A 01 A", "no\t1\n"),
        ("M  1", "no\t4\n"),
        ("M 1 ", "no\t4\n"),
        ("M 0 1", "no\t4\n"),
        ("M 1 2", "no\t4\n"),
        ("M 13 1", "no\t4\n"),
        ("M 1x 1", "no\t4\n"),
        ("M 11111111111111111 1", "no\t4\n"),
        ("M 1 11111111111111111", "no\t4\n"),
    ] {
        let replies = session(&open_identity(record));
        let expected = format!("{reply}no\t2\nok\t0\n");
        assert_eq!(String::from_utf8(replies).unwrap(), expected, "{record}");
    }
    let too_long = session(&open_identity(&"M".repeat(1101)));
    assert_eq!(too_long, b"no\t1\nno\t2\nok\t0\n");
    // Without any refusal between, the same E is granted.
    let input = lines("P A 2 1\nM 11 11\nM 12 12\nE\nT");
    assert_eq!(session(&input), b"ok\t1\nok\t1\n");
}

/// The checks of E in their order: from column 6, 7, to column 6, 7.
#[test]
fn order_of_the_column_checks() {
    for (pairs, reply) in [
        (vec!["1 1", "1 1"], "no\t6\tF\n"),
        (vec!["11 1", "1 11"], "no\t6\tF\n"),
        (vec!["111 1", "11 1"], "no\t6\tF\n"),
        (vec!["11 1", "111 1"], "no\t6\tF\n"),
        (vec!["11 1", "121 1"], "no\t7\tF\n"),
        (vec!["12 1"], "no\t7\tF\n"),
        (vec!["11 1", "12 1"], "no\t6\tT\n"),
        (vec!["11 121", "12 12"], "no\t6\tT\n"),
        (vec!["11 111", "12 12"], "no\t7\tT\n"),
        (vec!["1 12"], "no\t7\tT\n"),
        (vec!["1 1"], "ok\t1\n"),
        (vec!["12 11", "11 12"], "ok\t2\n"),
    ] {
        let mut input = b"P\tA\t2\t1\n".to_vec();
        for pair in &pairs {
            input.extend(format!("M {pair}\n").replace(' ', "\t").bytes());
        }
        input.extend(b"E\n");
        let replies = String::from_utf8(session(&input)).unwrap();
        assert_eq!(replies, reply, "{pairs:?}");
    }
    let second_belt = lines("P A 3 2\nM 1 1\nE\nP A 3 2\nM 1 1\nM 2 2\nE\nP A 3 2\nM 2 2\nE");
    assert_eq!(session(&second_belt), b"no\t7\tF\nok\t2\nno\t7\tF\n");
}
