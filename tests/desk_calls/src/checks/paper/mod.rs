//! The session of document 01 in full, with the replies that it, E1 and E7 give, in
//! lines and as far as that goes in jobs; the slots of U in the order of E2; two
//! plans of X (E3) that were worked by hand, in tests/cases/README.md; what only calls
//! refuse, in so many words; in `stations` those of E5, in `rights` those of E6, in
//! `places` those of E7 and in `pairs_held` those of E8; in `feeding` what the header
//! says of pieces of input. Nothing here asks the second implementation.

pub mod feeding;
pub mod pairs_held;
pub mod places;
pub mod rights;
pub mod stations;

use crate::calls::Calls;
use crate::values::{Desk, Done, Job, Written};

const PLAN: [&str; 4] = ["P\tA\t2\t1", "M\t111\t11", "M\t112\t121", "M\t12\t122"];

/// What E1 puts in the place of the session's 13, with the places of E7.
const BLOCK: &str = "B\t111\t11\t1\nB\t112\t121\t2\nok\t2\n";

/// Asserts the reply to a line, in a buffer that it fills and in one that is
/// longer.
fn reply(calls: &dyn Calls, desk: &mut Desk, line: &str, reply: &str) {
    let before = *desk;
    for room in [reply.len() + 20, reply.len()] {
        *desk = before;
        let mut out = vec![b'.'; room];
        let written = calls.line(desk, line.as_bytes(), &mut out);
        assert_eq!(written, Written::bytes(reply.len()), "to {line}");
        assert_eq!(&out[..reply.len()], reply.as_bytes(), "to {line}");
        assert!(out[reply.len()..].iter().all(|byte| *byte == b'.'));
    }
}

/// Asserts that a line is refused with this number, and what is left of the desk.
fn line_refused(calls: &dyn Calls, desk: &Desk, line: &str, number: u8, left: &Desk) {
    let (mut said, mut out) = (*desk, [b'.'; 9]);
    let answer = calls.line(&mut said, line.as_bytes(), &mut out);
    assert_eq!(answer, Written::refused(number, 0), "to {line} on {desk:?}");
    assert_eq!((&said, out), (left, [b'.'; 9]), "after {line}");
}

/// The same of a job.
fn job_refused(calls: &dyn Calls, desk: &Desk, job: Job, number: u8, left: &Desk) {
    let mut done = *desk;
    let answer = calls.job(&mut done, job);
    assert_eq!(answer, Done::refused(number, 0), "to {job:?} on {desk:?}");
    assert_eq!(&done, left, "after {job:?}");
}

/// A line and a job that are to be answered alike.
type Both<'a> = (&'a str, Job);

/// The same of both.
fn refused(calls: &dyn Calls, desk: &Desk, (line, job): Both, number: u8, left: &Desk) {
    line_refused(calls, desk, line, number, left);
    job_refused(calls, desk, job, number, left);
}

pub fn session(calls: &dyn Calls) {
    assert_eq!(calls.size(), std::mem::size_of::<Desk>());
    assert_eq!(calls.size(), 18_632);
    let mut desk = calls.fresh();
    assert_eq!(desk, Desk::FRESH);
    for line in PLAN {
        assert!(calls.is_desk(&desk));
        reply(calls, &mut desk, line, "");
    }
    assert_eq!((desk.opened, desk.blocks[8].pairs), (b'A', 3));
    assert_eq!(desk.columns[2048..2051], [0x111, 0x112, 0x12]);
    assert_eq!(desk.columns[2176..2179], [0x11, 0x121, 0x122]);
    reply(calls, &mut desk, "E", "ok\t3\n");
    assert_eq!((desk.opened, *desk.count()), (0, 1));
    assert!(desk.is_empty(8));
    reply(calls, &mut desk, "W\tA\t1122", "ok\t1212\t2\n");
    reply(calls, &mut desk, "K\tA\t2\tB", "ok\t4\n");
    let listing = "P\tB\t2\t1\nM\t1111\t11\nM\t1112\t121\nM\t112\t1221\nM\t12\t1222\nE\n";
    reply(calls, &mut desk, "L\tB", listing);
    assert_eq!(desk.columns[256..260], [0x1111, 0x1112, 0x112, 0x12]);
    reply(calls, &mut desk, "W\tA\t11", BLOCK);
    reply(calls, &mut desk, "T", "ok\t2\n");
    assert!(calls.is_desk(&desk));
}

pub fn session_in_jobs(calls: &dyn Calls) {
    let job = |letter, a, b, c, k| Job {
        letter,
        a,
        b,
        c,
        k,
        ..Job::default()
    };
    let mut desk = calls.fresh();
    let opened = calls.job(&mut desk, job(b'P', b'A', 2, 1, 0));
    assert_eq!(opened, Done::value(0));
    for line in &PLAN[1..] {
        reply(calls, &mut desk, line, "");
    }
    let jobs = [
        (job(b'E', 0, 0, 0, 0), Done::value(3)),
        (job(b'K', b'A', b'B', 0, 2), Done::value(4)),
        (job(b'I', b'A', b'C', 0, 0), Done::value(3)),
        (job(b'F', b'A', b'C', b'D', 0), Done::value(1)),
        (job(b'S', b'A', b'B', 0, 0), Done::value(0)),
        (job(b'S', b'A', b'A', 0, 0), Done::value(1)),
        (job(b'T', 0, 0, 0, 0), Done::value(4)),
        (job(b'C', b'D', 0, 0, 0), Done::value(0)),
        (job(b'C', b'D', 0, 0, 0), Done::refused(9, 0)),
        (job(b'K', b'A', b'B', 0, 15), Done::refused(11, 0)),
        (job(b'K', b'H', b'B', 0, 1001), Done::refused(12, 0)),
        (job(b'W', b'A', 0, 0, 0), Done::refused(1, 0)),
        (job(b'P', b'A', 10, 1, 0), Done::refused(3, 0)),
        (job(b'P', b'A', 2, 1, 0), Done::value(0)),
        (job(b'E', 0, 0, 0, 0), Done::refused(7, b'F')),
        (job(b'E', 0, 0, 0, 0), Done::refused(2, 0)),
        (job(b'T', 0, 0, 0, 0), Done::value(5)),
    ];
    for (job, answer) in jobs {
        assert_eq!(calls.job(&mut desk, job), answer, "to {job:?}");
    }
}

/// A block too is refused with 14 where "the lent buffer is shorter than the
/// output", and the buffer "then holds what it held before".
pub fn block_without_room(calls: &dyn Calls) {
    let mut desk = calls.fresh();
    for line in PLAN {
        reply(calls, &mut desk, line, "");
    }
    reply(calls, &mut desk, "E", "ok\t3\n");
    let before = desk;
    for room in 0..BLOCK.len() {
        let mut out = vec![b'.'; room];
        let answer = calls.line(&mut desk, b"W\tA\t11", &mut out);
        assert_eq!(answer, Written::refused(14, 0), "with {room} bytes");
        assert!(out.iter().all(|byte| *byte == b'.'), "with {room} bytes");
        assert_eq!(desk, before, "with {room} bytes");
    }
    reply(calls, &mut desk, "W\tA\t11", BLOCK);
    reply(calls, &mut desk, "W\tA\t112", "ok\t121\t2\n");
    reply(calls, &mut desk, "T", "ok\t1\n");
}

/// "The lines now come with the most pairs first, and equal ones by slot letter"
/// (E2): after plans are kept, replaced and emptied.
pub fn survey(calls: &dyn Calls) {
    let mut desk = calls.fresh();
    reply(calls, &mut desk, "U", "ok\t0\n");
    for line in PLAN {
        reply(calls, &mut desk, line, "");
    }
    for (line, said) in [
        ("E", "ok\t3\n"),
        ("U", "A\t2\t1\t3\nok\t1\n"),
        ("K\tA\t8\tB", "ok\t10\n"),
        ("K\tA\t7\tC", "ok\t9\n"),
        ("I\tA\tH", "ok\t3\n"),
        (
            "U",
            "B\t2\t1\t10\nC\t2\t1\t9\nA\t2\t1\t3\nH\t2\t1\t3\nok\t4\n",
        ),
        ("K\tB\t0\tB", "ok\t1\n"),
        ("F\tA\tA\tH", "ok\t4\n"),
        (
            "U",
            "C\t2\t1\t9\nH\t2\t1\t4\nA\t2\t1\t3\nB\t2\t1\t1\nok\t4\n",
        ),
        ("C\tC", "ok\n"),
        ("U", "H\t2\t1\t4\nA\t2\t1\t3\nB\t2\t1\t1\nok\t3\n"),
        ("T", "ok\t7\n"),
    ] {
        reply(calls, &mut desk, line, said);
    }
}

/// The numbers of an X: n, r, s and the seed.
type Exercise = (u8, u8, u8, u64);

fn exercise_job(slot: u8, (n, r, splits, seed): Exercise) -> Job {
    Job {
        letter: b'X',
        a: slot,
        b: n,
        c: r,
        k: 0,
        seed,
        splits,
    }
}

/// The plans that were worked by hand, by lines and by jobs, word by word; the
/// refusals "17, .. after 8 and 3; then 5 and 4 ..; 16 last", in that order, and 1,
/// for more splits than two digits have, before them.
pub fn exercises(calls: &dyn Calls) {
    let mut desk = calls.fresh();
    reply(calls, &mut desk, "X\tA\t2\t1\t2\t1", "ok\t2\n");
    reply(calls, &mut desk, "X\tB\t2\t1\t3\t2147483646", "ok\t3\n");
    assert_eq!(desk.columns[..3], [0x11, 0x12, 0]);
    assert_eq!(desk.columns[128..131], [0x12, 0x11, 0]);
    assert_eq!(desk.columns[256..260], [0x111, 0x112, 0x12, 0]);
    assert_eq!(desk.columns[384..388], [0x121, 0x11, 0x122, 0]);
    assert_eq!((desk.opened, *desk.count()), (0, 2));
    let mut again = calls.fresh();
    for (slot, numbers, pairs) in [(b'A', (2, 1, 2, 1), 2), (b'B', (2, 1, 3, 2_147_483_646), 3)] {
        let done = calls.job(&mut again, exercise_job(slot, numbers));
        assert_eq!(done, Done::value(pairs));
    }
    assert_eq!(again, desk);
    for (slot, numbers, number) in [
        (b'@', (1, 1, 100, 0), 1),
        (b'@', (1, 1, 99, 0), 8),
        (b'A', (1, 1, 99, 0), 3),
        (b'A', (2, 10, 3, 1), 3),
        (b'A', (9, 9, 255, 0), 1),
        (b'A', (9, 9, 99, 0), 17),
        (b'A', (2, 1, 2, 2_147_483_647), 17),
        (b'A', (2, 1, 2, (1 << 32) + 1), 17),
        (b'A', (2, 1, 2, u64::MAX), 17),
        (b'A', (3, 1, 99, 22), 5),
        // 129 pairs, and 127
        (b'A', (3, 1, 64, 22), 5),
        (b'A', (3, 1, 63, 22), 16),
        (b'A', (2, 1, 99, 5), 4),
        (b'A', (2, 1, 99, 19), 4),
        (b'A', (2, 1, 2, 1), 16),
    ] {
        let mut full = desk;
        *full.count() = 4_000_000_000;
        let before = full;
        let done = calls.job(&mut full, exercise_job(slot, numbers));
        assert_eq!(done, Done::refused(number, 0), "to {numbers:?}");
        assert_eq!(full, before, "after {numbers:?}");
    }
}

/// 2 for X in an open plan, which is dropped; 15 before all; 14 last, and the plan
/// isn't kept then.
pub fn exercises_refused(calls: &dyn Calls) {
    let line = b"X\tB\t2\t1\t2\t1";
    let mut open = calls.fresh();
    reply(calls, &mut open, PLAN[0], "");
    let mut out = [b'.'; 9];
    let answer = calls.line(&mut open, line, &mut out);
    assert_eq!((answer, open), (Written::refused(2, 0), Desk::FRESH));
    for room in 0..5 {
        let answer = calls.line(&mut open, line, &mut out[..room]);
        assert_eq!((answer, open), (Written::refused(14, 0), Desk::FRESH));
    }
    let refused = calls.line(&mut open, b"X\tB\t2\t1\t2\t0", &mut []);
    assert_eq!((refused, open), (Written::refused(17, 0), Desk::FRESH));
    let mut no_desk = open;
    *no_desk.count() = 4_000_000_001;
    let before = no_desk;
    let done = calls.job(&mut no_desk, exercise_job(b'@', (0, 0, 255, 0)));
    assert_eq!((done, no_desk), (Done::refused(15, 0), before));
    assert_eq!(out, [b'.'; 9]);
}

/// "s one or two digits" (E3), in jobs too: up to 99 splits X is a record, and with
/// more it is none, whatever else is wrong with it. Other letters have no splits.
pub fn splits(calls: &dyn Calls) {
    let mut full = calls.fresh();
    reply(calls, &mut full, "X\tA\t2\t1\t2\t1", "ok\t2\n");
    *full.count() = 4_000_000_000;
    let mut open = full;
    reply(calls, &mut open, PLAN[0], "");
    let mut no_desk = open;
    *no_desk.count() += 1;
    for splits in 0..=255 {
        let or_form = |number| if splits > 99 { 1 } else { number };
        for (slot, numbers, number) in [
            (b'@', (0, 0, splits, 0), 8),
            (b'A', (2, 10, splits, 0), 3),
            (b'A', (9, 9, splits, 0), 17),
            (b'A', (3, 1, splits, 22), if splits < 64 { 16 } else { 5 }),
            (b'A', (2, 1, splits, 87), 16),
        ] {
            let job = exercise_job(slot, numbers);
            for (mut desk, number, after) in [
                (full, or_form(number), full),
                (open, or_form(2), full),
                (no_desk, 15, no_desk),
            ] {
                let done = calls.job(&mut desk, job);
                assert_eq!(done, Done::refused(number, 0), "to {job:?}");
                assert_eq!(desk, after, "after {job:?}");
            }
        }
        splits_on_fresh(calls, splits);
    }
}

/// A number of splits on a fresh desk: seed 87 gives a plan for all that there can
/// be, seed 5 words of 17 digits for 99 and more.
fn splits_on_fresh(calls: &dyn Calls, splits: u8) {
    let mut fresh = calls.fresh();
    let count = Job {
        letter: b'T',
        splits,
        ..Job::default()
    };
    assert_eq!(calls.job(&mut fresh, count), Done::value(0), "{splits}");
    let kept = calls.job(&mut fresh, exercise_job(b'B', (2, 1, splits, 87)));
    let mut desk = calls.fresh();
    let deep = calls.job(&mut desk, exercise_job(b'B', (2, 1, splits, 5)));
    if splits > 99 {
        assert_eq!((kept, fresh), (Done::refused(1, 0), Desk::FRESH));
        assert_eq!((deep, desk), (Done::refused(1, 0), Desk::FRESH));
    } else {
        assert_eq!((kept.number, *fresh.count()), (0, 1), "{splits} splits");
        assert!(matches!(deep.number, 0 | 4), "{splits} splits: {deep:?}");
    }
}

/// "Library calls put 15 before all these"; "such a desk has no open plan to
/// drop and is left as it came". "Calls that write bytes put 14 last", and "any
/// refusal drops an open plan and changes nothing else".
pub fn refusals_of_calls(calls: &dyn Calls) {
    let mut fresh = calls.fresh();
    for line in PLAN {
        reply(calls, &mut fresh, line, "");
    }
    let open = fresh;
    for (line, number) in [("T", 2), ("", 1), ("M\t3\t1", 4), ("P\tZ\t0\t0", 2)] {
        let mut desk = open;
        let mut out = [b'.'; 9];
        let answer = calls.line(&mut desk, line.as_bytes(), &mut out);
        assert_eq!(answer, Written::refused(number, 0), "to {line}");
        assert_eq!((desk, out), (Desk::FRESH, [b'.'; 9]), "after {line}");
    }
    let mut desk = open;
    let mut out = [b'.'; 4];
    assert_eq!(
        calls.line(&mut desk, b"E", &mut out),
        Written::refused(14, 0)
    );
    assert_eq!((desk, out), (Desk::FRESH, [b'.'; 4]));

    let mut no_desk = open;
    *no_desk.count() = 4_000_000_001;
    assert!(calls.is_desk(&open) && !calls.is_desk(&no_desk));
    for line in ["E", "", "T", "M\t3\t1"] {
        let mut desk = no_desk;
        let mut out = [b'.'; 9];
        let answer = calls.line(&mut desk, line.as_bytes(), &mut out);
        assert_eq!(answer, Written::refused(15, 0), "to {line}");
        assert_eq!((desk, out), (no_desk, [b'.'; 9]), "after {line}");
    }
    let mut desk = no_desk;
    let job = Job {
        letter: b'E',
        ..Job::default()
    };
    assert_eq!(calls.job(&mut desk, job), Done::refused(15, 0));
    assert_eq!(desk, no_desk);
    *desk.count() -= 1;
    assert_eq!(calls.job(&mut desk, job), Done::refused(16, 0));
    assert_eq!((desk.opened, *desk.count()), (0, 4_000_000_000));
    assert!(desk.is_empty(0) && desk.is_empty(8));
}
