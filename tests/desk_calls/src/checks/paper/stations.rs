//! The stations by the words of E5: whose count T gives, the refusals of Z, the limit
//! of each station, and values that are no desk for the sake of their stations.

use super::{refused, reply, Both, PLAN};
use crate::calls::Calls;
use crate::random::damage::far_stations;
use crate::values::{Control, Desk, Done, Job, Written};

/// Z of this number.
fn naming_job(station: u8) -> Job {
    Job {
        letter: b'Z',
        a: station,
        ..Job::default()
    }
}

/// A desk with a plan of two pairs in A. Three stations have made changes, and station
/// 5 is named.
fn used(calls: &dyn Calls) -> Desk {
    let mut desk = calls.fresh();
    for (line, said) in [
        ("X\tA\t2\t1\t2\t1", "ok\t2\n"),
        ("Z\t5", "ok\n"),
        ("T", "ok\t0\n"),
        ("I\tA\tB", "ok\t2\n"),
        ("I\tA\tB", "ok\t2\n"),
        ("T", "ok\t2\n"),
        ("Z\t0", "ok\n"),
        ("T", "ok\t1\n"),
        ("Z\t7", "ok\n"),
        ("C\tB", "ok\n"),
        ("T", "ok\t1\n"),
        ("Z\t5", "ok\n"),
        ("T", "ok\t2\n"),
    ] {
        reply(calls, &mut desk, line, said);
    }
    let control = Control {
        station: 5,
        changes: [1, 0, 0, 0, 0, 2, 0, 1],
        pairs: 2,
        ..Control::FRESH
    };
    assert_eq!(desk.control, control);
    desk
}

/// "A record Z⇥digit names the station for the records after it; before the first, it
/// is station 0. T gives the named station's own changes .. Z counts no change and
/// replies `ok`. New numbers: 18, a digit above 7, after 1 and 2."
pub fn naming(calls: &dyn Calls) {
    let desk = used(calls);
    let mut open = desk;
    reply(calls, &mut open, PLAN[0], "");
    for station in 0..=255 {
        // a digit in the place of a number that has none
        let line = format!("Z\t{}", station.min(9));
        let both = (&line[..], naming_job(station));
        refused(calls, &open, both, 2, &desk);
        if station > 7 {
            refused(calls, &desk, both, 18, &desk);
        } else {
            named(calls, &desk, both);
        }
    }
    let no_job = Job {
        letter: b'z',
        ..Job::default()
    };
    for line in [
        "Z\t10", "Z\tx", "Z\t", "Z", "Z\t-0", "Z\t1\t", "Z\t8\t", "Z\t05",
    ] {
        refused(calls, &desk, (line, no_job), 1, &desk);
        refused(calls, &open, (line, no_job), 1, &desk);
    }
    // a buffer that is "shorter than the output"
    for room in 0..3 {
        let (mut short, mut out) = (desk, [b'.'; 3]);
        let answer = calls.line(&mut short, b"Z\t6", &mut out[..room]);
        assert_eq!((answer, short), (Written::refused(14, 0), desk));
    }
}

/// A station that is named, by a line and by a job, and its count.
fn named(calls: &dyn Calls, desk: &Desk, (line, job): Both) {
    let (mut said, mut done) = (*desk, *desk);
    reply(calls, &mut said, line, "ok\n");
    assert_eq!(calls.job(&mut done, job), Done::value(0), "to {job:?}");
    let mut after = *desk;
    after.control.station = job.a.into();
    assert_eq!((said, done), (after, after), "after {job:?}");
    let telling = Job {
        letter: b'T',
        ..Job::default()
    };
    let count = Done::value(*after.count());
    assert_eq!(calls.job(&mut done, telling), count, "after {job:?}");
    assert_eq!(done, after, "after T");
}

/// "Each station has the limit of 4,000,000,000, and one station at its limit leaves
/// the others free to work."
pub fn limits(calls: &dyn Calls) {
    let inverse = Job {
        letter: b'I',
        a: b'A',
        b: b'H',
        ..Job::default()
    };
    let both = ("I\tA\tH", inverse);
    for full in 0..8 {
        let mut desk = used(calls);
        desk.control.station = full;
        *desk.count() = 3_999_999_999;
        reply(calls, &mut desk, both.0, "ok\t2\n");
        assert_eq!(*desk.count(), 4_000_000_000);
        refused(calls, &desk, both, 16, &desk);
        for station in (0..8).filter(|station| *station != full) {
            desk.control.station = station;
            let count = *desk.count();
            reply(calls, &mut desk, both.0, "ok\t2\n");
            assert_eq!(calls.job(&mut desk, inverse), Done::value(2));
            reply(calls, &mut desk, "T", &format!("ok\t{}\n", count + 2));
        }
        reply(calls, &mut desk, &format!("Z\t{full}"), "ok\n");
        reply(calls, &mut desk, "T", "ok\t4000000000\n");
        refused(calls, &desk, both, 16, &desk);
    }
}

/// 15 for a station above 7, whatever it is modulo 256, and for a count above the limit, whoever is named: such a
/// desk "is left as it came".
pub fn damage(calls: &dyn Calls) {
    let desk = used(calls);
    let both = ("Z\t3", naming_job(3));
    for station in far_stations() {
        let mut value = desk;
        value.control.station = station;
        assert!(!calls.is_desk(&value), "station {station}");
        refused(calls, &value, both, 15, &value);
    }
    for (named, counted) in (0..64).map(|both| (both / 8, both % 8)) {
        let mut value = desk;
        value.control.station = named as u32;
        value.control.changes[counted] = 4_000_000_001;
        assert!(!calls.is_desk(&value), "{counted}, where {named} is named");
        refused(calls, &value, both, 15, &value);
        value.control.changes[counted] -= 1;
        assert!(calls.is_desk(&value), "{counted}, where {named} is named");
    }
}
