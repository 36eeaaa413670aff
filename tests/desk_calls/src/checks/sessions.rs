//! Random sessions, line by line: real plans and records that must be refused.
//! Some start with stations near their limit, some lines meet a buffer that is too
//! short first, and in some sessions jobs come between the lines.

use library::checks::tally::Tally;
use reference::COUNT_LIMIT;
use sessions::SURVEYS;

use super::side_by_side::{SideBySide, AMPLE};
use crate::calls::Calls;
use crate::random::desks::full;
use crate::random::jobs::some_job;
use crate::random::Rng;
use crate::values::{Desk, LONGEST_REPLY};

/// Every answer that a sound desk can get, and blocks of W.
const ANSWERS: [&str; 20] = [
    "0", "1", "2", "3", "4", "5", "6F", "6T", "7F", "7T", "8", "9", "10", "11", "12", "14", "16",
    "17", "18", "a block",
];

/// The answers to X alone, those to Z, and those to H.
const OWN: [&str; 17] = [
    "X 0", "X 1", "X 2", "X 3", "X 4", "X 5", "X 8", "X 16", "X 17", "Z 0", "Z 1", "Z 2", "Z 18",
    "H 0", "H 1", "H 2", "H 19",
];

pub fn of_lines(calls: &dyn Calls) {
    let mut tally = Tally::default();
    for seed in 0..SESSIONS {
        run(calls, seed, 0, &mut tally);
    }
    tally.demand(10, &ANSWERS);
    tally.demand(5, &OWN);
    tally.demand(10, SURVEYS);
}

pub fn with_jobs(calls: &dyn Calls) {
    let mut tally = Tally::default();
    for seed in SESSIONS..2 * SESSIONS {
        run(calls, seed, 25, &mut tally);
    }
    tally.demand(10, &ANSWERS);
    tally.demand(5, &OWN);
    tally.demand(10, SURVEYS);
}

/// Desks with no room left: the longest replies, and products that mostly are
/// too large.
pub fn of_full_desks(calls: &dyn Calls) {
    let mut rng = Rng::new(201);
    let mut both = SideBySide::new(calls, &Desk::FRESH);
    let lines: [&[u8]; 14] = [
        b"U",
        b"H",
        b"W\tA\t1",
        b"W\tH\t1",
        b"L\tA",
        b"L\tH",
        b"F\tA\tB\tC",
        b"I\tD\tD",
        b"S\tD\tH",
        b"K\tE\t2\tE",
        b"H",
        b"C\tH",
        b"U",
        b"H",
    ];
    for _ in 0..24 {
        let desk = full(&mut rng);
        for line in [&b"E"[..], b"M\t1\t1"] {
            both.start(&desk);
            assert!(both.is_desk(), "sound: {desk:?}");
            both.line(line);
        }
        both.start(&desk.without_open());
        for line in lines {
            both.line(line);
        }
        for _ in 0..10 {
            both.job(some_job(&mut rng));
        }
    }
    both.tally
        .demand(5, &["0", "5", "6F", "11", "a block", "U tie"]);
}

/// Seventy-two seeds in a row meet every shape; twice as many also give every
/// answer ten times.
const SESSIONS: u64 = 144;

/// One session; before each line comes a job in so many of a hundred cases.
fn run(calls: &dyn Calls, seed: u64, jobs: usize, tally: &mut Tally) {
    let mut rng = Rng::new(1000 + seed);
    let mut desk = Desk::FRESH;
    if seed % 3 == 0 {
        for count in &mut desk.control.changes {
            if rng.chance(70) {
                *count = COUNT_LIMIT as u32 - rng.below(12) as u32;
            }
        }
    }
    let mut both = SideBySide::new(calls, &desk);
    std::mem::swap(tally, &mut both.tally);
    for line in sessions::session(seed).split(|byte| *byte == b'\n') {
        // seldom while a plan is open, which it drops
        let chance = if both.desk().opened == 0 { 1 } else { 200 };
        if rng.below(100 * chance) < jobs {
            both.job(some_job(&mut rng));
        }
        if rng.chance(2) {
            both.line_into(line, *rng.pick(&[0, 1, 4, 5, 8, 30]));
        }
        both.line_into(line, *rng.pick(&[AMPLE, AMPLE, LONGEST_REPLY]));
        if rng.chance(2) {
            assert!(both.is_desk(), "a desk stays a desk");
        }
    }
    std::mem::swap(tally, &mut both.tally);
}
