//! The stations (E5) beside the second implementation: every number in a job of Z, Z in a line and by number, every
//! change by every station with some stations at their limit, and values that name
//! no station or have a count above its limit.

use reference::COUNT_LIMIT;

use super::side_by_side::SideBySide;
use crate::calls::Calls;
use crate::random::damage::far_stations;
use crate::random::desks::{prepared, with_psi_open};
use crate::random::jobs::{any_job, some_job};
use crate::random::Rng;
use crate::values::{Desk, Job, STATIONS};

const LIMIT: u32 = COUNT_LIMIT as u32;

/// Z of this number; the fields that it doesn't have name slots and numbers too.
fn naming(a: u8) -> Job {
    Job {
        letter: b'Z',
        a,
        b: b'B',
        c: 2,
        k: 1001,
        seed: 7,
        splits: 100,
    }
}

/// The prepared desk with another station named, without and with a plan open.
fn desks() -> impl Iterator<Item = Desk> {
    (0..STATIONS).flat_map(|station| {
        let mut desk = prepared();
        desk.control.station = station as u32;
        [desk, with_psi_open(&desk, b'G')]
    })
}

/// Every byte in the place of the station, whoever is named; then whose count it is,
/// and a change of that station.
pub fn of_every_number(calls: &dyn Calls) {
    let mut rng = Rng::new(601);
    let mut both = SideBySide::new(calls, &Desk::FRESH);
    for desk in desks() {
        let mut no_desk = desk;
        no_desk.control.station += 8;
        for number in 0..=255 {
            let other = any_job(&mut rng, b'Z');
            for job in [naming(number), Job { a: number, ..other }] {
                both.start(&no_desk);
                both.job(job);
                both.start(&desk);
                both.job(job);
            }
            both.line(b"T");
            both.line(b"I\tA\tF");
            both.line(b"T");
        }
    }
    both.tally
        .demand(100, &["Z 0", "Z 2", "Z 15", "Z 18", "0", "16"]);
}

/// Z in a line and by number: one answer and one desk for each digit.
pub fn beside_lines(calls: &dyn Calls) {
    let mut both = SideBySide::new(calls, &Desk::FRESH);
    for desk in desks() {
        let mut no_desk = desk;
        *no_desk.count() = LIMIT + 1;
        for (digit, desk) in (0..=9).flat_map(|digit| [(digit, desk), (digit, no_desk)]) {
            both.start(&desk);
            let said = both.line(format!("Z\t{digit}").as_bytes());
            let after = *both.desk();
            both.start(&desk);
            let done = both.job(naming(digit));
            assert_eq!((said.number, said.column), (done.number, done.column));
            assert_eq!(done.value, 0, "to {digit}");
            assert_eq!(after, *both.desk(), "after {digit}");
        }
    }
    both.tally.demand(10, &["Z 0", "Z 2", "Z 15", "Z 18"]);
}

/// Every change on the prepared desk, in a line and by number; E closes an open plan.
fn changes() -> [(&'static [u8], Job); 6] {
    let job = |letter, a, b, c, k| Job {
        letter,
        a,
        b,
        c,
        k,
        seed: 7,
        splits: 3,
    };
    [
        (b"E", job(b'E', 0, 0, 0, 0)),
        (b"F\tA\tB\tF", job(b'F', b'A', b'B', b'F', 0)),
        (b"I\tA\tF", job(b'I', b'A', b'F', 0, 0)),
        (b"K\tB\t2\tF", job(b'K', b'B', b'F', 0, 2)),
        (b"C\tE", job(b'C', b'E', 0, 0, 0)),
        (b"X\tF\t2\t1\t3\t7", job(b'X', b'F', 2, 1, 0)),
    ]
}

/// Every change by every station, with all sets of stations at their limit that are
/// none, one, all but one or all, and the others one below it or far from it; in lines
/// and by number, and then the count of each.
pub fn at_their_limits(calls: &dyn Calls) {
    let mut both = SideBySide::new(calls, &Desk::FRESH);
    for desk in at_limits() {
        for (line, job) in changes() {
            let desk = match line {
                b"E" => with_psi_open(&desk, b'F'),
                _ => desk,
            };
            both.start(&desk);
            both.job(job);
            both.start(&desk);
            both.line(line);
            for station in 0..STATIONS as u8 {
                both.job(naming(station));
                both.line(b"T");
            }
        }
    }
    both.tally.demand(500, &["0", "16"]);
}

/// Desks with stations at their limit.
fn at_limits() -> Vec<Desk> {
    let mut all = Vec::new();
    for named in 0..STATIONS {
        let apart = (0..STATIONS).map(Some).chain([None]);
        for (apart, below) in apart.flat_map(|apart| [(apart, 1), (apart, 3_999_999_998)]) {
            for full_apart in [true, false] {
                let mut desk = prepared();
                desk.control.station = named as u32;
                for (station, count) in desk.control.changes.iter_mut().enumerate() {
                    let full = (apart == Some(station)) == full_apart;
                    *count = if full { LIMIT } else { LIMIT - below };
                }
                all.push(desk);
            }
        }
    }
    all
}

/// Stations and far numbers in the place of the named one, and every station's count at its
/// limit and above, whoever is named: a value is a desk or it gets 15 from every call
/// and stays as it came.
pub fn damaged(calls: &dyn Calls) {
    let mut rng = Rng::new(602);
    let mut both = SideBySide::new(calls, &Desk::FRESH);
    let mut ask = |value: &Desk, sound: bool| {
        both.start(value);
        assert_eq!(both.is_desk(), sound, "{value:?}");
        for line in [&b"T"[..], b"Z\t0", b"U", b"", b"C\tA"] {
            both.start(value);
            let number = both.line(line).number;
            assert_eq!(number == 15, !sound, "{number} on {value:?}");
        }
        for job in [naming(3), naming(9), some_job(&mut rng)] {
            both.start(value);
            both.job(job);
            assert!(sound || both.desk() == value);
        }
    };
    for desk in [prepared(), with_psi_open(&prepared(), b'C'), Desk::FRESH] {
        for station in (0..8).chain(far_stations()) {
            let mut value = desk;
            value.control.station = station;
            ask(&value, station < 8);
        }
        for (named, counted) in (0..64).map(|both| (both / 8, both % 8)) {
            for count in [0, LIMIT - 1, LIMIT, LIMIT + 1, u32::MAX] {
                let mut value = desk;
                value.control.station = named as u32;
                value.control.changes[counted] = count;
                ask(&value, count <= LIMIT);
            }
        }
    }
    both.tally
        .demand(500, &["is a desk", "is no desk", "15", "Z 15"]);
}
