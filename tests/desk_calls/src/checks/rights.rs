//! The rights (E6) beside the second implementation: every number in a job of G, G in
//! a line and by number, records of all kinds under all rights, and values with a
//! right that there isn't.

use super::side_by_side::SideBySide;
use crate::calls::Calls;
use crate::random::desks::{prepared, restrict, some_desk, with_psi_open};
use crate::random::jobs::{any_job, some_job};
use crate::random::Rng;
use crate::values::{places_of_rights, Desk, Job, SLOTS, STATIONS};

/// G of these; the fields that it doesn't have have numbers too.
fn gift(a: u8, b: u8, c: u8) -> Job {
    Job {
        letter: b'G',
        a,
        b,
        c,
        k: 1001,
        seed: 7,
        splits: 100,
    }
}

/// The prepared desk with rights of all kinds and this station named, without and
/// with a plan open.
fn desks(rng: &mut Rng, stations: &[u32]) -> Vec<Desk> {
    let mut all = Vec::new();
    for station in stations {
        let mut desk = prepared();
        desk.control.station = *station;
        desk.control.changes[0] = 5;
        restrict(rng, &mut desk);
        all.extend([desk, with_psi_open(&desk, b'G')]);
    }
    all
}

/// Every byte in the place of the station, of the slot and of the right.
pub fn of_every_number(calls: &dyn Calls) {
    let mut rng = Rng::new(701);
    let mut both = SideBySide::new(calls, &Desk::FRESH);
    for desk in desks(&mut rng, &[0, 0, 5]) {
        let mut no_desk = desk;
        no_desk.control.put_right(7, 7, 3);
        for number in 0..=255 {
            let slot = b'A' + number % 8;
            let any = any_job(&mut rng, b'G');
            for job in [
                gift(number, b'A', 1),
                gift(number, number, 2),
                gift(1 + number % 7, number, 0),
                gift(1 + number % 7, slot, number),
                gift(number, slot, number),
                gift(1 + number / 8 % 7, slot, number % 3),
                any,
            ] {
                both.start(&no_desk);
                both.job(job);
                both.start(&desk);
                both.job(job);
                both.job(some_job(&mut rng));
            }
        }
    }
    both.tally
        .demand(100, &["G 0", "G 1", "G 2", "G 8", "G 15", "G 18", "G 19"]);
}

/// G in a line and by number: one answer and one desk for all digits.
pub fn beside_lines(calls: &dyn Calls) {
    let mut rng = Rng::new(702);
    let mut both = SideBySide::new(calls, &Desk::FRESH);
    for desk in desks(&mut rng, &[0, 6]) {
        for (station, right) in
            (0..=9).flat_map(|station| (0..=9).map(move |right| (station, right)))
        {
            for slot in *b"ACHI@a" {
                both.start(&desk);
                let line = format!("G\t{station}\t{}\t{right}", char::from(slot));
                let said = both.line(line.as_bytes());
                let after = *both.desk();
                both.start(&desk);
                let done = both.job(gift(station, slot, right));
                assert_eq!((said.number, said.column), (done.number, done.column));
                assert_eq!(done.value, 0, "to {line}");
                assert_eq!(after, *both.desk(), "after {line}");
            }
        }
    }
    both.tally
        .demand(10, &["G 0", "G 1", "G 2", "G 8", "G 18", "G 19"]);
}

/// Records that name slots 'A', 'E' and 'F', held and empty.
const LINES: [&[u8]; 22] = [
    b"P\tA\t2\t1",
    b"P\tA\t0\t1",
    b"X\tA\t2\t1\t3\t7",
    b"X\tF\t9\t9\t99\t7",
    b"X\tA\t2\t1\t3\t0",
    b"C\tA",
    b"C\tF",
    b"L\tA",
    b"L\tF",
    b"W\tA\t12",
    b"W\tF\tx",
    b"W\tA\t11",
    b"S\tA\tE",
    b"S\tE\tF",
    b"S\tA\tI",
    b"I\tA\tF",
    b"I\tF\tA",
    b"K\tA\t2\tF",
    b"K\tF\t1001\tA",
    b"F\tA\tA\tF",
    b"F\tF\tA\tE",
    b"U",
];

/// The job of a line, where it has one: its letter and its fields of one byte, and
/// the numbers of n and r.
fn job_of(line: &[u8]) -> Option<Job> {
    let fields: Vec<&[u8]> = line.split(|byte| *byte == b'\t').collect();
    let byte = |place: usize| fields.get(place).map_or(0, |field| field[0]);
    let digit = |place: usize| byte(place).wrapping_sub(b'0');
    let job = |b, c, k| Job {
        letter: byte(0),
        a: byte(1),
        b,
        c,
        k,
        seed: 7,
        splits: 3,
    };
    match byte(0) {
        b'P' | b'X' => Some(job(digit(2), digit(3), 0)),
        b'C' | b'S' | b'I' => Some(job(byte(2), 0, 0)),
        b'K' => Some(job(byte(3), 0, if digit(2) == 1 { 1001 } else { 2 })),
        b'F' => Some(job(byte(2), byte(3), 0)),
        _ => None,
    }
}

/// Every record under every right on each of its slots, of each station, in lines and
/// by number; and then what a station with all rights sees of it.
pub fn of_every_record(calls: &dyn Calls) {
    let mut both = SideBySide::new(calls, &Desk::FRESH);
    for station in 0..STATIONS {
        for rights in 0..27 {
            let mut desk = prepared();
            desk.control.station = station as u32;
            desk.control.changes[station] = 5;
            for (place, slot) in [0, 4, 5].into_iter().enumerate() {
                let right = rights / 3usize.pow(place as u32) % 3;
                // the rights of the others are turned round
                for other in 1..STATIONS {
                    let right = if other == station { right } else { 2 - right };
                    desk.control.put_right(other, slot, right as u8);
                }
            }
            for line in LINES {
                both.start(&desk);
                both.line(line);
                if let Some(job) = job_of(line) {
                    both.start(&desk);
                    both.job(job);
                }
            }
            both.start(&with_psi_open(&desk, b'A'));
            both.line(b"E");
            both.line(b"U");
        }
    }
    both.tally
        .demand(50, &["0", "20", "8", "9", "3", "12", "17"]);
}

/// Jobs and lines on random desks with rights of all kinds, one after another.
pub fn in_chains(calls: &dyn Calls) {
    let mut rng = Rng::new(703);
    let mut both = SideBySide::new(calls, &Desk::FRESH);
    for _ in 0..60 {
        let mut desk = some_desk(&mut rng);
        restrict(&mut rng, &mut desk);
        both.start(&desk);
        for _ in 0..40 {
            if rng.chance(20) {
                both.line(b"Z\t0");
            }
            both.job(some_job(&mut rng));
            if rng.chance(20) {
                both.line(b"U");
            }
            if rng.chance(10) {
                let line = *rng.pick(&LINES);
                both.line(line);
            }
        }
        assert!(both.is_desk(), "a desk stays a desk");
    }
    both.tally
        .demand(20, &["0", "20", "G 0", "G 1", "G 18", "G 19"]);
}

/// A right of 3 in each place alone, beside others and in all, and rights of any
/// other kind: a value is a desk or it gets 15 from every call and stays as it came.
pub fn damaged(calls: &dyn Calls) {
    let mut rng = Rng::new(704);
    let mut both = SideBySide::new(calls, &Desk::FRESH);
    let mut ask = |value: &Desk, sound: bool| {
        both.start(value);
        assert_eq!(both.is_desk(), sound, "{value:?}");
        for line in [&b"T"[..], b"G\t1\tA\t2", b"U", b""] {
            both.start(value);
            let number = both.line(line).number;
            assert_eq!(number == 15, !sound, "{value:?}");
        }
        both.start(value);
        both.job(some_job(&mut rng));
    };
    let open = with_psi_open(&prepared(), b'C');
    for desk in [prepared(), open, Desk::FRESH] {
        for (station, slot) in places_of_rights() {
            for right in 0..4 {
                let mut value = desk;
                value.control.put_right(station, slot, right);
                ask(&value, right < 3);
            }
        }
    }
    let mut rng = Rng::new(705);
    for turn in 0..400 {
        let mut value = prepared();
        for (station, slot) in places_of_rights() {
            value.control.put_right(station, slot, rng.below(3) as u8);
        }
        value.control.station = rng.below(STATIONS) as u32;
        ask(&value, true);
        let threes = if turn == 0 { 56 } else { rng.between(1, 3) };
        for _ in 0..threes {
            let station = rng.between(1, STATIONS - 1);
            value.control.put_right(station, rng.below(SLOTS), 3);
        }
        ask(&value, false);
    }
}
