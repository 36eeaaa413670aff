//! Refusal 1 in all its cases (unknown letter, wrong number of fields, a field
//! form, a line too long), and what is right in form and refused later.
//! Spaces stand for tabs in the records.

use crate::prepared::{check, check_on, prepared};

/// Letters that no record has; the first two lines have an empty one.
const UNKNOWN_LETTERS: &[&str] = &[
    "", " ", "Y", "p A 2 1", "PP A 2 1", "\r", "T\r", "\0", "tt", "z 1", "ZZ 1", "g 1 A 1",
    "GG 1 A 1", "h", "HH", "H\r", " H", "H\0",
];

/// Records with a field too few or too many.
const WRONG_NUMBERS_OF_FIELDS: &[&str] = &[
    "P",
    "P A 2",
    "P A 2 1 ",
    "P A 2 1 1",
    "M",
    "M 1",
    "M 1 1 1",
    "E ",
    "E 1",
    "F A A",
    "F A A A A",
    "I A",
    "I A A A",
    "K A 1",
    "S A",
    "S A A A",
    "W A",
    "W A 1 1",
    "L",
    "L A A",
    "C",
    "T ",
    "T T",
    "U ",
    "U A",
    "H ",
    "H A",
    "H 0",
    "X",
    "X A 2 1 3",
    "Z",
    "Z 1 ",
    "Z 1 1",
    "G",
    "G 1",
    "G 1 A",
    "G 1 A 1 ",
    "G 1 A 1 1",
];

/// Slot fields of no byte or of two.
const WRONG_SLOTS: &[&str] = &[
    "P  2 1", "P AB 2 1", "F A A ", "F AA A A", "I A ", "K AA 1 C", "K A 1 ", "S  A", "W  1",
    "W AA 1", "L ", "C ", "C AA", "G 1  1", "G 1 AA 1",
];

/// Fields for n or r that are not one digit.
const WRONG_SHAPES: &[&str] = &["P A x 1", "P A 12 1", "P A  1", "P A 2 ", "P A 2 -"];

/// Fields for k that are not "an optional minus and one to four digits, no
/// leading zero and no minus zero".
const WRONG_POWERS: &[&str] = &[
    "", "-", "+1", "00", "01", "-0", "-01", "10000", "-10000", "1x", "--1",
];

/// Fields for the station of Z and of G that are not one digit.
const WRONG_STATIONS: &[&str] = &[
    "", "00", "01", "10", "70", "-0", "-1", "+1", "1x", "x", "A", "-", "1\0", "1\r", "\0", ".",
    "/", ":", "\u{661}",
];

/// Fields for the right of G that are not one digit 0 to 2.
const WRONG_RIGHTS: &[&str] = &[
    "", "3", "4", "9", "00", "01", "02", "10", "12", "20", "22", "-0", "-1", "+1", "1x", "x", "A",
    "1\0", "1\r", "\0", "\u{1}", "\u{2}", "/", ":", "\u{662}",
];

#[test]
fn forms() {
    let tables = [
        UNKNOWN_LETTERS,
        WRONG_NUMBERS_OF_FIELDS,
        WRONG_SLOTS,
        WRONG_SHAPES,
    ];
    for record in tables.concat() {
        check(record, "no 1");
    }
    for k in WRONG_POWERS {
        check(&format!("K A {k} C"), "no 1");
    }
    for station in WRONG_STATIONS {
        check(&format!("Z {station}"), "no 1");
        check(&format!("G {station} A 1"), "no 1");
    }
    for right in WRONG_RIGHTS {
        for station in [0, 1, 9] {
            check(&format!("G {station} A {right}"), "no 1");
            check(&format!("G {station} z {right}"), "no 1");
        }
    }
}

/// A slot may be any byte in form, so it is number 8 and not 1.
#[test]
fn slot_bytes() {
    for record in [
        "P I 2 1",
        "P a 0 0",
        "P @ 2 1",
        "P \r 2 1",
        "F A A I",
        "F z A A",
        "F C z B",
        "I A z",
        "I z A",
        "K A 1 z",
        "K z 1001 A",
        "K C 1001 z",
        "S A z",
        "S z C",
        "W z 1",
        "W z 0",
        "L z",
        "C z",
        "G 1 z 1",
        "G 0 I 1",
    ] {
        check(record, "no 8");
    }
    check_on(prepared(3), b"L\t\xff", "no\t8\n");
    check_on(prepared(3), b"L\t\0", "no\t8\n");
}

/// The limit of a line is 1,100 bytes without byte 10.
#[test]
fn lines_at_the_limit() {
    let padded = |length: usize| [b"W\tA\t".as_slice(), &vec![b'1'; length - 4]].concat();
    check_on(prepared(3), &padded(1100), "no\t4\n");
    check_on(prepared(3), &padded(1101), "no\t1\n");
    check_on(prepared(3), &padded(70_000), "no\t1\n");
    let empty_slot = [b"W\tC\t".as_slice(), &[b'1'; 1096]].concat();
    check_on(prepared(3), &empty_slot, "no\t9\n");
}
