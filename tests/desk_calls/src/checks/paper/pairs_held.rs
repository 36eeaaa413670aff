//! The pairs held by the words of E8: what H tells and to whom, what moves the sum and
//! what doesn't, and values that are no desk for the sake of their sum.

use super::{refused, reply, PLAN};
use crate::calls::Calls;
use crate::values::{Desk, Done, Job, OPEN, SLOTS};

/// H by number; the fields that it doesn't have have numbers too.
const ASKING: Job = Job {
    letter: b'H',
    a: 3,
    b: b'B',
    c: 2,
    k: 1001,
    seed: 7,
    splits: 100,
};

/// Asserts what H tells, in a line and by number, and that it leaves the desk.
fn told(calls: &dyn Calls, desk: &Desk, sum: u16) {
    let (mut said, mut done) = (*desk, *desk);
    reply(calls, &mut said, "H", &format!("ok\t{sum}\n"));
    assert_eq!(calls.job(&mut done, ASKING), Done::value(sum.into()));
    assert_eq!((said, done), (*desk, *desk), "after H");
    assert!(calls.is_desk(desk), "{desk:?}");
}

/// Does a record and asserts the sum behind it: in the desk, over the slots, and told.
fn moved(calls: &dyn Calls, desk: &mut Desk, line: &str, said: &str, sum: u16) {
    reply(calls, desk, line, said);
    let over_slots: usize = desk.blocks[..SLOTS].iter().map(|block| block.pairs).sum();
    let stored = desk.control.pairs;
    assert_eq!(
        (stored, over_slots),
        (sum, sum.into()),
        "after {line}: {desk:?}"
    );
    told(calls, desk, sum);
}

/// ψ in A, its square in B and a plan of two pairs in H: nine pairs.
fn used(calls: &dyn Calls) -> Desk {
    let mut desk = calls.fresh();
    assert_eq!(desk.control.pairs, 0);
    told(calls, &desk, 0);
    for line in PLAN {
        reply(calls, &mut desk, line, "");
        assert_eq!(desk.control.pairs, 0, "after {line}");
    }
    moved(calls, &mut desk, "E", "ok\t3\n", 3);
    moved(calls, &mut desk, "K\tA\t2\tB", "ok\t4\n", 7);
    moved(calls, &mut desk, "X\tH\t2\t1\t2\t1", "ok\t2\n", 9);
    desk
}

/// "It equals the pairs kept less the pairs overwritten or emptied, counted from a
/// fresh desk on, and also the sum over the slots."
pub fn moving(calls: &dyn Calls) {
    let mut desk = used(calls);
    for (line, said, sum) in [
        ("I\tA\tA", "ok\t3\n", 9),
        ("F\tB\tB\tB", "ok\t6\n", 11),
        ("K\tB\t0\tB", "ok\t1\n", 6),
        ("K\tA\t14\tC", "ok\t16\n", 22),
        ("I\tC\tA", "ok\t16\n", 35),
        ("F\tC\tA\tC", "ok\t1\n", 20),
        // four pairs that are made, of which three are kept
        ("X\tA\t2\t1\t3\t2147483646", "ok\t3\n", 7),
        ("C\tA", "ok\n", 4),
        ("C\tH", "ok\n", 2),
        ("C\tB", "ok\n", 1),
        ("C\tC", "ok\n", 0),
        ("X\tD\t9\t9\t0\t1", "ok\t9\n", 9),
        ("X\tD\t2\t1\t0\t1", "ok\t1\n", 1),
    ] {
        moved(calls, &mut desk, line, said, sum);
    }
    // pairs that are typed, of which one is kept; until then the sum is that of before
    for line in ["P\tD\t2\t1", "M\t11\t11", "M\t12\t12"] {
        reply(calls, &mut desk, line, "");
        assert_eq!(desk.control.pairs, 1, "after {line}");
    }
    moved(calls, &mut desk, "E", "ok\t1\n", 1);
}

/// All that eight slots can hold, 128 pairs each: the words of seven ways, each sent to
/// the one with every way exchanged, so that nothing joins.
pub fn most(calls: &dyn Calls) {
    let mut desk = calls.fresh();
    let word = |number: usize| -> String {
        let way = |bit: usize| if number >> bit & 1 == 0 { '1' } else { '2' };
        ['1'].into_iter().chain((0..7).map(way)).collect()
    };
    reply(calls, &mut desk, "P\tA\t2\t1", "");
    for number in 0..128 {
        let line = format!("M\t{}\t{}", word(number), word(127 - number));
        reply(calls, &mut desk, &line, "");
    }
    moved(calls, &mut desk, "E", "ok\t128\n", 128);
    for (place, slot) in (1..).zip("BCDEFGH".chars()) {
        let line = format!("I\tA\t{slot}");
        moved(calls, &mut desk, &line, "ok\t128\n", 128 + 128 * place);
    }
    assert_eq!(desk.control.pairs, 1024);
    moved(calls, &mut desk, "F\tA\tB\tC", "ok\t1\n", 897);
    moved(calls, &mut desk, "C\tH", "ok\n", 769);
}

/// "Let a record H from station 0 give it .. Other stations get 19, after 1 and 2." It
/// counts no change, so that no limit stops it, and drops an open plan like others.
pub fn asking(calls: &dyn Calls) {
    let desk = used(calls);
    for station in 0..8 {
        let mut named = desk;
        named.control.station = station;
        *named.count() = 4_000_000_000;
        let mut open = named;
        reply(calls, &mut open, PLAN[0], "");
        reply(calls, &mut open, PLAN[1], "");
        match station {
            0 => told(calls, &named, 9),
            _ => refused(calls, &named, ("H", ASKING), 19, &named),
        }
        refused(calls, &open, ("H", ASKING), 2, &named);
        let no_job = Job {
            letter: b'h',
            ..ASKING
        };
        for line in ["H\t", "H\t0", "H\tA", "HH", "h", "H ", "\tH"] {
            refused(calls, &named, (line, no_job), 1, &named);
            refused(calls, &open, (line, no_job), 1, &named);
        }
    }
    // rights are nothing to it
    let mut hidden = desk;
    hidden.control.rights = [0; 7];
    told(calls, &hidden, 9);
    for room in 0..5 {
        let (mut short, mut out) = (desk, [b'.'; 5]);
        let answer = calls.line(&mut short, b"H", &mut out[..room]);
        assert_eq!((answer.number, short), (14, desk), "with {room} bytes");
        assert_eq!(out, [b'.'; 5], "with {room} bytes");
    }
}

/// "Any refusal drops an open plan and changes nothing else": 16 and 14 too, which come
/// when the result is there.
pub fn refused_changes(calls: &dyn Calls) {
    let desk = used(calls);
    let mut full = desk;
    *full.count() = 4_000_000_000;
    let job = |letter, a, b, c, k| Job {
        letter,
        a,
        b,
        c,
        k,
        seed: 1,
        splits: 2,
    };
    let changes = [
        ("F\tA\tA\tB", job(b'F', b'A', b'A', b'B', 0)),
        ("I\tB\tA", job(b'I', b'B', b'A', 0, 0)),
        ("K\tA\t0\tB", job(b'K', b'A', b'B', 0, 0)),
        ("C\tB", job(b'C', b'B', 0, 0, 0)),
        ("X\tA\t2\t1\t2\t1", job(b'X', b'A', 2, 1, 0)),
    ];
    for change in changes {
        refused(calls, &full, change, 16, &full);
        told(calls, &full, 9);
        let (mut short, mut out) = (desk, [b'.'; 2]);
        let answer = calls.line(&mut short, change.0.as_bytes(), &mut out);
        assert_eq!((answer.number, short), (14, desk), "to {}", change.0);
        told(calls, &short, 9);
    }
    for (line, job, number) in [
        ("F\tA\tG\tB", job(b'F', b'A', b'G', b'B', 0), 9),
        ("K\tA\t15\tB", job(b'K', b'A', b'B', 0, 15), 11),
        ("K\tA\t1001\tB", job(b'K', b'A', b'B', 0, 1001), 12),
        ("C\tI", job(b'C', b'I', 0, 0, 0), 8),
        ("X\tB\t2\t0\t2\t1", job(b'X', b'B', 2, 0, 0), 3),
    ] {
        refused(calls, &desk, (line, job), number, &desk);
        told(calls, &desk, 9);
    }
    // E at the limit, and an E that would keep a plan over another
    for (before, room, number) in [(full, 9, 16), (desk, 4, 14)] {
        let mut open = before;
        reply(calls, &mut open, "P\tB\t2\t1", "");
        reply(calls, &mut open, "M\t1\t1", "");
        let answer = calls.line(&mut open, b"E", &mut [b'.'; 9][..room]);
        assert_eq!((answer.number, open), (number, before));
        told(calls, &open, 9);
    }
}

/// "A desk whose stored sum is off is no desk (15)", with a plan open and without, and
/// is left as it came. The pairs of an open plan are in no slot.
pub fn damage(calls: &dyn Calls) {
    let desk = used(calls);
    let mut open = desk;
    for line in &PLAN[..2] {
        reply(calls, &mut open, line, "");
    }
    let change = Job {
        letter: b'C',
        a: b'A',
        ..Job::default()
    };
    let off = (0..=1100).chain([9 + 1024, 9 + 0x2000, 0x8009, u16::MAX]);
    for sum in off.filter(|sum| *sum != 9) {
        for sound in [&desk, &open] {
            let mut value = *sound;
            value.control.pairs = sum;
            assert!(!calls.is_desk(&value), "{sum} pairs");
            refused(calls, &value, ("H", ASKING), 15, &value);
            refused(calls, &value, ("C\tA", change), 15, &value);
            refused(calls, &value, ("E", ASKING), 15, &value);
            refused(calls, &value, ("", Job::default()), 15, &value);
        }
    }
    let mut with_open = open;
    assert_eq!(with_open.blocks[OPEN].pairs, 1);
    with_open.control.pairs += 1;
    assert!(calls.is_desk(&open) && !calls.is_desk(&with_open));
    counts_that_wrap(calls, &desk);
}

/// Counts of pairs that no plan has: the sum is 9 in sixteen bits and in sixty-four.
fn counts_that_wrap(calls: &dyn Calls, desk: &Desk) {
    for by in [1, 128, 1 << 16, 1 << 32, 1 << 63, usize::MAX] {
        for (more, fewer) in [(0, 1), (1, 7), (7, 0), (0, 2), (2, 3), (6, 7)] {
            let mut value = *desk;
            for (slot, by) in [(more, by), (fewer, by.wrapping_neg())] {
                let pairs = &mut value.blocks[slot].pairs;
                *pairs = pairs.wrapping_add(by);
            }
            assert!(!calls.is_desk(&value), "{value:?}");
            refused(calls, &value, ("H", ASKING), 15, &value);
        }
    }
    for slot in 0..SLOTS {
        for more in [1 << 16, 1 << 32, 1 << 48, 1 << 63] {
            let mut value = *desk;
            value.blocks[slot].pairs += more;
            assert!(!calls.is_desk(&value), "{value:?}");
            refused(calls, &value, ("H", ASKING), 15, &value);
        }
    }
}
