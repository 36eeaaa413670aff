//! The rights by the words of E6: what G gives and when it is refused, what each
//! record needs, what U shows, and values that are no desk for the sake of a right.

use super::{job_refused, line_refused, reply};
use crate::calls::Calls;
use crate::values::{places_of_rights, Control, Desk, Done, Job, Written, SLOTS};

/// G of these numbers.
fn gift(a: u8, b: u8, c: u8) -> Job {
    Job {
        letter: b'G',
        a,
        b,
        c,
        ..Job::default()
    }
}

/// A desk with 11→12, 12→11 in A and H, and station 0 named.
fn used(calls: &dyn Calls) -> Desk {
    let mut desk = calls.fresh();
    assert_eq!(desk.control, Control::FRESH);
    reply(calls, &mut desk, "X\tA\t2\t1\t2\t1", "ok\t2\n");
    reply(calls, &mut desk, "I\tA\tH", "ok\t2\n");
    desk
}

/// "Station 0 sends G⇥station⇥slot⇥right .. and gets `ok`; it counts no change.
/// Everyone starts with 2": each gift changes its own place alone.
pub fn giving(calls: &dyn Calls) {
    let desk = used(calls);
    for (station, slot) in places_of_rights() {
        for first in 0..3 {
            let mut before = desk;
            before.control.put_right(station, slot, first);
            for right in 0..3 {
                let mut after = before;
                after.control.put_right(station, slot, right);
                let letter = b'A' + slot as u8;
                let (mut said, mut done) = (before, before);
                let line = format!("G\t{station}\t{}\t{right}", char::from(letter));
                reply(calls, &mut said, &line, "ok\n");
                let answer = calls.job(&mut done, gift(station as u8, letter, right));
                assert_eq!(answer, Done::value(0), "to {line}");
                assert_eq!((said, done), (after, after), "after {line}");
                assert!(calls.is_desk(&after));
            }
        }
    }
}

/// "19, G from another station or for station 0, after 18 and 8 .. a right above 2 is
/// 1", which comes before 2.
pub fn refused_gifts(calls: &dyn Calls) {
    let desk = used(calls);
    let mut open = desk;
    reply(calls, &mut open, "P\tB\t2\t1", "");
    let mut other = desk;
    other.control.station = 4;
    for (a, b, c, from_zero, from_four) in [
        (0, b'A', 0, 19, 19),
        (0, b'A', 2, 19, 19),
        (4, b'A', 1, 0, 19),
        (1, b'H', 2, 0, 19),
        (1, b'I', 1, 8, 8),
        (0, b'@', 1, 8, 8),
        (8, b'A', 1, 18, 18),
        (9, b'I', 1, 18, 18),
        (8, b'A', 3, 1, 1),
        (1, b'A', 3, 1, 1),
        (0, b'I', 9, 1, 1),
    ] {
        let line = format!("G\t{a}\t{}\t{c}", char::from(b));
        for (desk, number) in [(&desk, from_zero), (&other, from_four)] {
            if number > 0 {
                line_refused(calls, desk, &line, number, desk);
                job_refused(calls, desk, gift(a, b, c), number, desk);
            }
        }
        let while_open = if c > 2 { 1 } else { 2 };
        line_refused(calls, &open, &line, while_open, &desk);
        job_refused(calls, &open, gift(a, b, c), while_open, &desk);
    }
    // numbers that no line has digits for
    for number in 8..=255 {
        job_refused(calls, &desk, gift(number, b'A', 1), 18, &desk);
        job_refused(calls, &desk, gift(1, b'A', number), 1, &desk);
        job_refused(calls, &open, gift(1, b'A', number), 1, &desk);
    }
    for room in 0..3 {
        let (mut short, mut out) = (desk, [b'.'; 3]);
        let answer = calls.line(&mut short, b"G\t1\tA\t0", &mut out[..room]);
        assert_eq!((answer, short), (Written::refused(14, 0), desk));
    }
}

/// A line, the job of it where there is one, its reply, and what it needs on slots 'A'
/// and 'H'.
type Need = (&'static str, Option<Job>, &'static str, [u8; 2]);

fn needs() -> Vec<Need> {
    let job = |letter, a, b, c, k| {
        Some(Job {
            letter,
            a,
            b,
            c,
            k,
            seed: 1,
            splits: 0,
        })
    };
    vec![
        ("P\tA\t2\t1", job(b'P', b'A', 2, 1, 0), "", [2, 0]),
        (
            "X\tH\t2\t1\t0\t1",
            job(b'X', b'H', 2, 1, 0),
            "ok\t1\n",
            [0, 2],
        ),
        ("C\tA", job(b'C', b'A', 0, 0, 0), "ok\n", [2, 0]),
        ("I\tA\tH", job(b'I', b'A', b'H', 0, 0), "ok\t2\n", [1, 2]),
        ("I\tH\tA", job(b'I', b'H', b'A', 0, 0), "ok\t2\n", [2, 1]),
        ("I\tA\tA", job(b'I', b'A', b'A', 0, 0), "ok\t2\n", [2, 0]),
        ("K\tA\t2\tH", job(b'K', b'A', b'H', 0, 2), "ok\t1\n", [1, 2]),
        (
            "F\tA\tH\tH",
            job(b'F', b'A', b'H', b'H', 0),
            "ok\t1\n",
            [1, 2],
        ),
        (
            "F\tH\tA\tB",
            job(b'F', b'H', b'A', b'B', 0),
            "ok\t1\n",
            [1, 1],
        ),
        (
            "F\tA\tA\tA",
            job(b'F', b'A', b'A', b'A', 0),
            "ok\t1\n",
            [2, 0],
        ),
        ("S\tA\tH", job(b'S', b'A', b'H', 0, 0), "ok\t1\n", [1, 1]),
        ("W\tH\t112", None, "ok\t122\t1\n", [0, 1]),
        (
            "L\tA",
            None,
            "P\tA\t2\t1\nM\t11\t12\nM\t12\t11\nE\n",
            [1, 0],
        ),
        ("T", job(b'T', 0, 0, 0, 0), "ok\t0\n", [0, 0]),
        ("Z\t3", job(b'Z', 3, 0, 0, 0), "ok\n", [0, 0]),
    ]
}

/// "Reading needs 1, P, X, C or a target needs 2": every record with every right on
/// both slots, of each station. What isn't missing is done as with all rights.
pub fn needed(calls: &dyn Calls) {
    let desk = used(calls);
    for station in 1..8 {
        for (line, job, said, [on_a, on_h]) in needs() {
            for rights in 0..9 {
                let mut limited = desk;
                limited.control.station = station as u32;
                let [a, h] = [rights % 3, rights / 3];
                limited.control.put_right(station, 0, a);
                limited.control.put_right(station, 7, h);
                if a < on_a || h < on_h {
                    line_refused(calls, &limited, line, 20, &limited);
                    job.inspect(|job| job_refused(calls, &limited, *job, 20, &limited));
                    continue;
                }
                let mut after = limited;
                reply(calls, &mut after, line, said);
                if let Some(job) = job {
                    let mut done = limited;
                    assert_eq!(calls.job(&mut done, job).number, 0, "to {job:?}");
                    assert_eq!(done, after, "after {job:?}");
                }
                let mut free = desk;
                free.control.station = station as u32;
                reply(calls, &mut free, line, said);
                free.control.rights = limited.control.rights;
                assert_eq!(free, after, "after {line}");
            }
        }
    }
}

/// "U shows only readable slots", and E of a plan that is open needs nothing more.
pub fn shown(calls: &dyn Calls) {
    let mut desk = used(calls);
    desk.control.station = 6;
    for (a, h, list) in [
        (2, 2, "A\t2\t1\t2\nH\t2\t1\t2\nok\t2\n"),
        (1, 1, "A\t2\t1\t2\nH\t2\t1\t2\nok\t2\n"),
        (0, 1, "H\t2\t1\t2\nok\t1\n"),
        (2, 0, "A\t2\t1\t2\nok\t1\n"),
        (0, 0, "ok\t0\n"),
    ] {
        desk.control.put_right(6, 0, a);
        desk.control.put_right(6, 7, h);
        reply(calls, &mut desk, "U", list);
        // a plan that is open for a slot, whatever the station may do with it
        let mut open = desk;
        open.opened = b'A';
        let plan = open.value(7);
        open.put(SLOTS, &plan);
        assert!(calls.is_desk(&open));
        let mut closed = open;
        reply(calls, &mut closed, "E", "ok\t2\n");
        let mut after = desk;
        after.hold(0, &plan);
        *after.count() += 1;
        assert_eq!(closed, after);
        let mut done = open;
        let job = Job {
            letter: b'E',
            ..Job::default()
        };
        assert_eq!((calls.job(&mut done, job), done), (Done::value(2), after));
    }
}

/// A right of 3 in any place is no right: 15 before all else, and the value stays as
/// it came, with an open plan too.
pub fn damage(calls: &dyn Calls) {
    let desk = used(calls);
    let mut open = desk;
    reply(calls, &mut open, "P\tB\t2\t1", "");
    for (station, slot) in places_of_rights() {
        for (named, sound) in [(0, &desk), (station as u32, &desk), (3, &open)] {
            let mut spoiled = *sound;
            spoiled.control.station = named;
            assert!(calls.is_desk(&spoiled), "{spoiled:?}");
            spoiled.control.put_right(station, slot, 3);
            assert!(!calls.is_desk(&spoiled), "{spoiled:?}");
            for line in ["T", "U", "G\t1\tA\t2", "Z\t0", "", "E"] {
                line_refused(calls, &spoiled, line, 15, &spoiled);
            }
            for job in [gift(1, b'A', 2), gift(9, b'I', 9), Job::default()] {
                job_refused(calls, &spoiled, job, 15, &spoiled);
            }
        }
    }
}
