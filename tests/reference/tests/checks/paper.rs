//! The cases document 01 prints: the session in full, with the block that E1
//! puts into it and the places of E7, the plans to try and the ways a desk goes wrong. Spaces stand
//! for tabs in the texts below.

use reference::{session, Desk, Image, Match, Placed, Plan, Refusal, Routed, Shape, Word};

const BINARY: Shape = Shape { arity: 2, roots: 1 };

/// Records written with spaces for tabs, one a line.
pub fn lines(text: &str) -> Vec<u8> {
    let trimmed = text.lines().map(str::trim).filter(|l| !l.is_empty());
    let records: Vec<String> = trimmed.map(|l| l.replace(' ', "\t") + "\n").collect();
    records.concat().into_bytes()
}

/// Asserts what a fresh desk replies.
fn check(input: &str, output: &str) {
    let replies = session(&lines(input));
    let got = String::from_utf8(replies).expect("replies are text");
    let expected = String::from_utf8(lines(output)).expect("text");
    assert_eq!(got, expected, "to {input}");
}

fn words(texts: &[(&str, &str)]) -> Vec<(Word, Word)> {
    let pairs = texts.iter();
    pairs.map(|(f, t)| ((*f).into(), (*t).into())).collect()
}

fn kept(texts: &[(&str, &str)]) -> Plan {
    Plan::keep(BINARY, &words(texts)).expect("a plan")
}

fn psi() -> Plan {
    kept(&[("111", "11"), ("112", "121"), ("12", "122")])
}

fn phi() -> Plan {
    kept(&[("111", "122"), ("112", "121"), ("12", "11")])
}

#[test]
fn the_session_in_full() {
    let input = "P\tA\t2\t1\nM\t111\t11\nM\t112\t121\nM\t12\t122\nE\nW\tA\t1122\n\
                 K\tA\t2\tB\nL\tB\nW\tA\t11\nT\n";
    let output = "ok\t3\nok\t1212\t2\nok\t4\nP\tB\t2\t1\nM\t1111\t11\nM\t1112\t121\n\
                  M\t112\t1221\nM\t12\t1222\nE\nB\t111\t11\t1\nB\t112\t121\t2\nok\t2\nok\t2\n";
    assert_eq!(session(input.as_bytes()), output.as_bytes());
}

#[test]
fn joins_and_no_joins() {
    check(
        "P A 2 1
         M 11 11
         M 12 12
         E
         L A",
        "ok 1
         P A 2 1
         M 1 1
         E",
    );
    check(
        "P A 2 1
         M 11 12
         M 12 11
         E
         L A",
        "ok 2
         P A 2 1
         M 11 12
         M 12 11
         E",
    );
}

/// Belts look like the parts of an empty word, but "w and v being words of at
/// least a belt" forbids that join on either side.
#[test]
fn belts_do_not_join() {
    check(
        "P A 2 2
         M 1 1
         M 2 2
         E
         P B 2 3
         M 11 1
         M 12 2
         M 2 31
         M 3 32
         E
         L B",
        "ok 2
         ok 4
         P B 2 3
         M 11 1
         M 12 2
         M 2 31
         M 3 32
         E",
    );
}

#[test]
fn columns_that_are_no_bases() {
    check(
        "P A 2 1
         M 11 1
         M 12 11
         E",
        "no 6 T",
    );
    check("P A 2 1\nE", "no 7 F");
    check(
        "P A 2 1
         M 11 11
         M 121 121
         M 122 1221
         E",
        "no 7 T",
    );
    check(
        "P A 2 1
         M 11 1
         M 11 1
         E",
        "no 6 F",
    );
    check(
        "P A 2 1
         M 11 1
         E",
        "no 7 F",
    );
}

#[test]
fn phi_has_order_four() {
    let squared = kept(&[
        ("111", "112"),
        ("112", "111"),
        ("121", "122"),
        ("122", "121"),
    ]);
    assert_eq!(phi().power(2), Ok(squared.clone()));
    assert_eq!(squared.size(), 4);
    let inverse = kept(&[("11", "12"), ("121", "112"), ("122", "111")]);
    assert_eq!(phi().inverse(), inverse);
    assert_eq!(phi().power(-1), Ok(inverse));
    assert_eq!(phi().power(4), Ok(Plan::identity(BINARY)));
    assert_eq!(phi().power(1000), Ok(Plan::identity(BINARY)));
    assert_eq!(phi().power(-998), Ok(squared));
}

#[test]
fn psi_and_its_powers() {
    assert_eq!(psi().then(&psi().inverse()), Ok(Plan::identity(BINARY)));
    let image = |digits: &str, place| Image {
        digits: digits.into(),
        place,
    };
    assert_eq!(psi().route(b"12"), Ok(image("122", 3)));
    assert_eq!(psi().route(b"11"), Err(Refusal::CodeTooShort));
    let line = |(place, from, to): (usize, &str, &str)| Placed {
        place,
        from: from.into(),
        to: to.into(),
    };
    let block = [(1, "111", "11"), (2, "112", "121")].map(line);
    assert_eq!(
        psi().route_or_block(b"11"),
        Ok(Routed::Block(block.to_vec()))
    );
    let fourteenth = psi().power(14).expect("within the limits");
    assert_eq!(fourteenth.size(), 16);
    let longest = fourteenth.pairs().keys().map(Vec::len).max();
    assert_eq!(longest, Some(16));
    assert_eq!(psi().power(15), Err(Refusal::ResultLimit));
    assert_eq!(psi().power(-15), Err(Refusal::ResultLimit));
    assert_eq!(psi().power(1000), Err(Refusal::ResultLimit));
    assert_eq!(psi().power(1001), Err(Refusal::ExponentRange));
    assert_eq!(psi().power(0), Ok(Plan::identity(BINARY)));
}

/// "The place is 0 where nothing matches or 15 or 4 applies."
#[test]
fn matches_of_psi() {
    for (code, tail, place) in [
        ("111", 0, 1),
        ("1112", 1, 1),
        ("1122", 1, 2),
        ("12", 0, 3),
        ("12111", 3, 3),
        ("11", 2, 0),
        ("1", 1, 0),
        ("", 0, 0),
        ("13", 2, 0),
        ("123", 3, 0),
    ] {
        assert_eq!(
            psi().matched(code.as_bytes()),
            Match { tail, place },
            "{code}"
        );
    }
    for (ways, matched) in [
        (
            1022,
            Match {
                tail: 1022,
                place: 3,
            },
        ),
        (
            1023,
            Match {
                tail: 1025,
                place: 0,
            },
        ),
    ] {
        let code = [b"12".to_vec(), vec![b'1'; ways]].concat();
        assert_eq!(psi().matched(&code), matched);
    }
}

/// "a then b applies a first": ψ then φ and φ then ψ differ on 12.
#[test]
fn the_first_plan_is_applied_first() {
    let image = |plan: Result<Plan, Refusal>| plan.unwrap().image(b"1211");
    assert_eq!(image(psi().then(&phi())), Some(b"11211".to_vec()));
    assert_eq!(image(phi().then(&psi())), Some(b"111".to_vec()));
    check(
        "P A 2 1
         M 111 11
         M 112 121
         M 12 122
         E
         P B 2 1
         M 111 122
         M 112 121
         M 12 11
         E
         F A B C
         F B A D
         W C 1211
         W D 1211
         S C D
         S C C",
        "ok 3
         ok 3
         ok 4
         ok 4
         ok 11211 4
         ok 111 3
         ok 0
         ok 1",
    );
}

/// The words of 8 digits: 128 of them in shape (2, 1).
fn full_level() -> Vec<Word> {
    let mut words = BINARY.belts();
    for _ in 0..7 {
        words = words.iter().flat_map(|w| BINARY.parts(w)).collect();
    }
    words
}

#[test]
fn the_129th_pair() {
    let mut typed: Vec<(Word, Word)> = full_level().into_iter().zip(full_level()).collect();
    assert_eq!(typed.len(), 128);
    assert_eq!(Plan::keep(BINARY, &typed), Ok(Plan::identity(BINARY)));
    let mut desk = Desk::new();
    let mut out = Vec::new();
    desk.feed(b"P\tA\t2\t1\n", &mut out);
    for (from, to) in &typed {
        desk.feed(
            &[b"M\t", from.as_slice(), b"\t", to, b"\n"].concat(),
            &mut out,
        );
    }
    desk.clone().feed(b"E\n", &mut out);
    assert_eq!(out, b"ok\t1\n");
    out.clear();
    desk.feed(b"M\t1\t1\nE\n", &mut out);
    assert_eq!(out, b"no\t5\nno\t2\n");
    typed.push((b"1".to_vec(), b"1".to_vec()));
    assert_eq!(Plan::keep(BINARY, &typed), Err(Refusal::TooManyPairs));
}

/// A cycle through 128 words: all thousand powers are within the limits.
#[test]
fn the_thousandth_power_of_a_plan_of_128_pairs() {
    let level = full_level();
    let mut turned = level.clone();
    turned.rotate_left(1);
    let typed: Vec<(Word, Word)> = level.into_iter().zip(turned).collect();
    let cycle = Plan::keep(BINARY, &typed).expect("a plan");
    assert_eq!(cycle.size(), 128);
    let far = cycle.power(1000).expect("within the limits");
    assert_eq!(cycle.power(-24), Ok(far.clone()));
    assert_eq!(cycle.power(1000 - 7 * 128), Ok(far));
}

#[test]
fn sixteen_digits_pass_and_seventeen_do_not() {
    let deep = |length: usize| {
        // The comb 12, 112, 1112, .. closed by a word of way 1 alone.
        let mut column: Vec<Word> = (1..length)
            .map(|ones| [vec![b'1'; ones], vec![b'2']].concat())
            .collect();
        column.push(vec![b'1'; length]);
        column.iter().cloned().zip(column.clone()).collect()
    };
    let sixteen: Vec<(Word, Word)> = deep(16);
    assert_eq!(Plan::keep(BINARY, &sixteen), Ok(Plan::identity(BINARY)));
    let seventeen: Vec<(Word, Word)> = deep(17);
    assert_eq!(Plan::keep(BINARY, &seventeen), Err(Refusal::BadWord));
    check(
        "P A 2 1
         M 1111111111111111 1
         M 1 11111111111111111",
        "no 4",
    );
}

#[test]
fn exponents_at_their_ends() {
    check(
        "P A 2 1
         M 1 1
         E
         K A 1000 B
         K A -1000 B
         K A 1001 B
         K A -1001 B
         K A 9999 B
         K A 0 B
         T",
        "ok 1
         ok 1
         ok 1
         no 12
         no 12
         no 12
         ok 1
         ok 4",
    );
}
