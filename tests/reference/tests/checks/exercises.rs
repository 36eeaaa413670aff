//! The plans of X (E3): the generator, the columns and their pairing, the
//! refusals in their order, and that P, M and E keep the same plan when its
//! unreduced pairs are typed. Spaces stand for tabs in the records.

use reference::basis::{column_flaw, verdict};
use reference::exercise::{column, shuffle, unreduced, Draws, MODULUS};
use reference::maps;
use reference::plan::within_limits;
use reference::{Desk, Plan, Refusal, Shape, Word, COUNT_LIMIT, PAIRS, WORD_DIGITS};

use crate::paper::lines;
use crate::prepared::{check, check_on, prepared};
use crate::random::{shapes, Random};

/// Park and Miller's own check of an implementation: from seed 1 the 10,000th draw
/// is 1043618065.
#[test]
fn the_ten_thousandth_draw() {
    let mut draws = Draws::after(1);
    let draws: Vec<u64> = (0..10_000).map(|_| draws.draw()).collect();
    assert_eq!(draws[..3], [16_807, 282_475_249, 1_622_650_073]);
    assert_eq!(draws[9_999], 1_043_618_065);
}

/// The modulus is a prime, so no draw is 0. The draws of two seeds that add up to
/// the modulus add up to it too.
#[test]
fn draws_stay_in_their_range() {
    let mut random = Random::new(71);
    let mut seeds = vec![1, 2, 16_807, MODULUS - 2, MODULUS - 1];
    seeds.extend((0..20).map(|_| 1 + random.next() % (MODULUS - 1)));
    for seed in seeds {
        let (mut draws, mut mirrored) = (Draws::after(seed), Draws::after(MODULUS - seed));
        for _ in 0..100_000 {
            let draw = draws.draw();
            assert!((1..MODULUS).contains(&draw), "from {seed}");
            assert_eq!(draw + mirrored.draw(), MODULUS, "from {seed}");
        }
    }
}

/// Each split puts n words in the stead of one, and the column stays a basis in
/// digit order; so many splits take so many draws.
#[test]
fn columns_are_bases() {
    for shape in shapes() {
        let (arity, roots) = (usize::from(shape.arity), usize::from(shape.roots));
        for splits in [0, 1, 2, 5, 9, 13] {
            let seed = 1 + u64::from(splits) * 1_000 + (arity * 10 + roots) as u64;
            let mut draws = Draws::after(seed);
            let words = column(shape, splits, &mut draws);
            assert_eq!(words.len(), roots + usize::from(splits) * (arity - 1));
            assert!(words.is_sorted());
            assert_eq!(column_flaw(shape, &words), None, "{shape:?} {splits}");
            let mut counted = Draws::after(seed);
            for _ in 0..splits {
                counted.draw();
            }
            assert_eq!(draws, counted, "{shape:?} {splits}");
        }
    }
}

/// A shuffle draws once less than there are words, keeps all of them and mostly
/// moves some.
#[test]
fn a_shuffle_is_a_permutation() {
    let mut moved = 0;
    for seed in 1..=200 {
        let shape = Shape { arity: 3, roots: 2 };
        let words = column(shape, (seed % 12) as u8, &mut Draws::after(seed));
        let (mut shuffled, mut draws) = (words.clone(), Draws::after(seed));
        shuffle(&mut shuffled, &mut draws);
        let mut counted = Draws::after(seed);
        for _ in 1..words.len() {
            counted.draw();
        }
        assert_eq!(draws, counted);
        moved += usize::from(shuffled != words);
        shuffled.sort();
        assert_eq!(shuffled, words);
    }
    assert!(moved > 180, "{moved}");
}

/// Which word each place holds after the swaps, worked out place by place from
/// the draws alone: 16807, 282475249 and 1622650073 modulo 4, 3 and 2.
#[test]
fn the_swaps_of_seed_one() {
    let mut words: Vec<Word> = [b"11", b"12", b"13", b"14"].map(|w| w.to_vec()).into();
    shuffle(&mut words, &mut Draws::after(1));
    // 3 with 3, 2 with 1, 1 with 1
    assert_eq!(words, [b"11", b"13", b"12", b"14"].map(|w| w.to_vec()));
    shuffle(&mut words, &mut Draws::after(2));
    // 33614, 564950498 and 1097816499: 3 with 2, 2 with 2, 1 with 1
    assert_eq!(words, [b"11", b"13", b"14", b"12"].map(|w| w.to_vec()));
}

/// The desk after some records, and its replies.
fn after(records: &[u8]) -> (Desk, String) {
    let (mut desk, mut out) = (Desk::new(), Vec::new());
    desk.feed(records, &mut out);
    (desk, String::from_utf8(out).expect("replies are text"))
}

/// The unreduced pairs of X typed as P, M and E, which keeps the same plan with the
/// same reply. Gives the pairs before and after reduction.
fn typed_alike(shape: Shape, splits: u8, seed: u64) -> (usize, usize) {
    let Shape { arity, roots } = shape;
    let record = format!("X C {arity} {roots} {splits} {seed}");
    let (made, reply) = after(&lines(&record));
    let pairs = unreduced(shape, splits, seed);
    let mut records = format!("P C {arity} {roots}\n");
    for (from, to) in &pairs {
        let text = |word: &Word| String::from_utf8(word.clone()).expect("digits");
        records += &format!("M {} {}\n", text(from), text(to));
    }
    let (typed, typed_reply) = after(&lines(&(records + "E")));
    assert_eq!(verdict(shape, &pairs), Ok(()), "{record}");
    assert_eq!(reply, typed_reply, "{record}");
    let plan = made.plan(b'C').expect("it is kept");
    assert_eq!(Some(plan), typed.plan(b'C'), "{record}");
    assert_eq!((made.stations().count(), made.open_plan()), (1, None));
    (pairs.len(), plan.size())
}

/// E takes what X makes: of every shape, with splits from none to the most that
/// are granted.
#[test]
fn typed_pairs_are_kept_alike() {
    for shape in shapes() {
        let (arity, roots) = (usize::from(shape.arity), usize::from(shape.roots));
        let most = ((PAIRS - roots) / (arity - 1)).min(60);
        for turn in 0..30 {
            let splits = (turn * turn % (most + 1)) as u8;
            let seed = (1 + turn * 7_919 + arity * 100_003 + roots) as u64;
            let (before, _) = typed_alike(shape, splits, seed);
            assert_eq!(before, roots + usize::from(splits) * (arity - 1));
        }
        let (before, _) = typed_alike(shape, most as u8, 2);
        assert!(most == 60 || before + arity - 1 > PAIRS);
    }
}

/// Of few splits in two parts many join, some of them to the plan that moves
/// nothing.
#[test]
fn typed_pairs_join_alike() {
    let (mut joined, mut still) = (0, 0);
    for seed in 1..=600 {
        let (roots, splits) = (1 + (seed % 2) as u8, 2 + (seed % 3) as u8);
        let (before, after) = typed_alike(Shape { arity: 2, roots }, splits, seed);
        joined += usize::from(after < before);
        still += usize::from(after == 1);
    }
    assert!(joined > 60 && still > 5, "{joined} {still}");
}

/// "The plan is fixed by the five fields alone": not by what the desk did.
#[test]
fn the_desk_does_not_matter() {
    let mut desk = prepared(9);
    let mut out = Vec::new();
    let records = "X E 3 2 7 12345\nX A 3 2 7 12345\nS A E\nX D 3 2 7 12346\nS A D\nT";
    desk.feed(&lines(records), &mut out);
    let (fresh, _) = after(&lines("X H 3 2 7 12345"));
    assert_eq!(desk.plan(b'A'), fresh.plan(b'H'));
    assert_eq!(desk.plan(b'E'), fresh.plan(b'H'));
    let replies = "ok 16\nok 16\nok 1\nok 16\nok 0\nok 12";
    assert_eq!(out, lines(replies));
}

#[test]
fn no_splits_permute_the_belts() {
    for shape in shapes() {
        for seed in [1, 77, MODULUS - 1] {
            let plan = Plan::exercise(shape, 0, seed).expect("a plan");
            let (from, mut to): (Vec<Word>, Vec<Word>) = plan.pair_list().into_iter().unzip();
            to.sort();
            assert_eq!((&from, &to), (&shape.belts(), &shape.belts()));
        }
    }
}

/// Fields for s and for the seed that are not digits, are too many, or have a
/// leading zero; and the other fields in a wrong form.
#[test]
fn forms() {
    for splits in ["", "00", "01", "07", "100", "-1", "+1", "x", "1x", "1\r"] {
        check(&format!("X A 2 1 {splits} 1"), "no 1");
        check(&format!("X z 0 0 {splits} 0"), "no 1");
    }
    for seed in [
        "",
        "00",
        "01",
        "0000000001",
        "10000000000",
        "00000000000",
        "-1",
        "+1",
        "1x",
        "x",
        "1\0",
    ] {
        check(&format!("X A 2 1 3 {seed}"), "no 1");
        check(&format!("X z 0 0 99 {seed}"), "no 1");
    }
    for record in [
        "X",
        "X A 2 1 3",
        "X A 2 1 3 1 ",
        "X A 2 1 3 1 1",
        "X  2 1 3 1",
        "X AA 2 1 3 1",
        "X A  1 3 1",
        "X A 12 1 3 1",
        "X A 2 12 3 1",
        "X A 2 - 3 1",
        "x A 2 1 3 1",
    ] {
        check(record, "no 1");
    }
}

/// Each number with something behind it wrong too. In shape (2,1) with 99 splits
/// a word of 17 digits is in the from column alone by seed 5, in the to column
/// alone by seed 19, and in both by seed 29. In shape (3,1) they make 199 pairs, by
/// seed 22 with a word of 17 digits too.
#[test]
fn order_of_the_refusals() {
    for (record, reply) in [
        ("X @ 1 0 99 0", "no 8"),
        ("X I 2 1 3 1", "no 8"),
        ("X A 1 1 99 0", "no 3"),
        ("X A 0 9 3 1", "no 3"),
        ("X A 2 0 99 2147483647", "no 3"),
        ("X A 9 9 99 0", "no 17"),
        ("X A 2 1 3 0", "no 17"),
        ("X A 2 1 3 2147483647", "no 17"),
        ("X A 2 1 3 4294967297", "no 17"),
        ("X A 2 1 3 9999999999", "no 17"),
        ("X A 3 1 99 22", "no 5"),
        ("X A 3 9 60 1", "no 5"),
        ("X A 9 9 15 1", "no 5"),
        ("X A 2 1 99 5", "no 4"),
        ("X A 2 1 99 19", "no 4"),
        ("X A 2 1 99 29", "no 4"),
        ("X A 2 9 99 1246", "no 4"),
    ] {
        check(record, reply);
        let full = prepared(COUNT_LIMIT);
        let (record, reply) = (record.replace(' ', "\t"), reply.replace(' ', "\t") + "\n");
        check_on(full, record.as_bytes(), &reply);
    }
    let shape = Shape { arity: 3, roots: 1 };
    let both = unreduced(shape, 99, 22);
    assert!(both.len() > PAIRS && both.iter().any(|(f, t)| f.len().max(t.len()) > WORD_DIGITS));
    assert_eq!(Plan::exercise(shape, 99, 22), Err(Refusal::TooManyPairs));
}

/// "If the unreduced plan breaks those limits": by seed 195 the words of 17 digits
/// would join, and by seed 1357 three of the 129 pairs.
#[test]
fn limits_hold_before_reduction() {
    for (arity, splits, seed, size, reply) in [
        (2, 99, 195, 99, Refusal::BadWord),
        (3, 64, 1357, 127, Refusal::TooManyPairs),
    ] {
        let shape = Shape { arity, roots: 1 };
        let pairs = unreduced(shape, splits, seed).into_iter().collect();
        let reduced = maps::reduce(shape, pairs);
        assert!(within_limits(&reduced) && reduced.len() == size);
        assert_eq!(Plan::exercise(shape, splits, seed), Err(reply));
    }
}

/// The limits themselves are granted: 128 pairs, words of 16 digits in both columns,
/// and 1 and 2147483646 as seeds.
#[test]
fn granted_neighbours() {
    let pairs = |record: &str| {
        let (desk, reply) = after(&lines(record));
        let plan = desk
            .plan(b'A')
            .unwrap_or_else(|| panic!("{record}: {reply}"));
        assert_eq!(reply, format!("ok\t{}\n", plan.size()));
        plan.size()
    };
    assert_eq!(pairs("X A 9 8 15 1"), 128);
    assert_eq!(pairs("X A 2 1 99 42"), 100);
    assert_eq!(pairs("X A 2 1 2 1"), 2);
    assert_eq!(pairs("X A 2 1 3 2147483646"), 3);
    assert_eq!(pairs("X A 2 9 0 5"), 9);
    assert_eq!(
        Plan::exercise(Shape { arity: 9, roots: 9 }, 15, 1),
        Err(Refusal::TooManyPairs)
    );
}

#[test]
fn the_count_at_its_limit() {
    check_on(prepared(COUNT_LIMIT), b"X\tA\t2\t1\t3\t1", "no\t16\n");
    check_on(prepared(COUNT_LIMIT), b"X\tH\t9\t9\t0\t1", "no\t16\n");
    let (mut desk, mut out) = (prepared(COUNT_LIMIT - 1), Vec::new());
    desk.feed(&lines("X B 2 1 2 1\nX B 2 1 2 2\nT\nL B"), &mut out);
    let replies = "ok 2\nno 16\nok 4000000000\nP B 2 1\nM 11 12\nM 12 11\nE";
    assert_eq!(out, lines(replies));
}

/// "Any other record while one is open": X is one of them, and drops the plan.
#[test]
fn an_open_plan_refuses_x() {
    for (record, reply) in [
        ("X A 2 1 2 1", "no 2"),
        ("X z 0 0 99 0", "no 2"),
        ("X A 2 1 2 01", "no 1"),
    ] {
        let (desk, replies) = after(&lines(&format!("P A 2 1\nM 1 1\n{record}\nE\nT")));
        assert_eq!(replies.into_bytes(), lines(&format!("{reply}\nno 2\nok 0")));
        assert!(desk.plan(b'A').is_none() && desk.open_plan().is_none());
    }
    // and X opens nothing
    let (_, replies) = after(&lines("X A 2 1 2 1\nM 1 1\nX A 2 1 2 1\nE\nT"));
    assert_eq!(replies.into_bytes(), lines("ok 2\nno 2\nok 2\nno 2\nok 2"));
}
