//! Each refusal, and then what the desk does after it: an open plan is gone, and
//! the slots, the sum of their pairs, the station, the counts and the rights are as
//! they were.

use reference::COUNT_LIMIT;

use super::side_by_side::SideBySide;
use crate::calls::Calls;
use crate::random::desks::{prepared, with_psi_open};
use crate::values::{Desk, Job};

/// Refused on the prepared desk, or with a plan open there.
const LINES: [&[u8]; 55] = [
    b"",
    b"Y",
    b"X",
    b"E\t",
    b"M\t1",
    b"T",
    b"U",
    b"H",
    b"H\t",
    b"H\t0",
    b"L\tA",
    b"P\tA\t2\t1",
    b"P\tI\t2\t1",
    b"P\tA\t1\t1",
    b"P\tA\t2\t0",
    b"P\tI\t0\t0",
    b"M\t0\t1",
    b"M\t1\t",
    b"M\t2\t1",
    b"M\t11111111111111111\t1",
    b"M\t1\t1",
    b"E",
    b"C\tF",
    b"C\tZ",
    b"F\tA\tC\tF",
    b"F\tA\tD\tA",
    b"F\tF\tA\tZ",
    b"I\tF\tA",
    b"K\tA\t15\tA",
    b"K\tF\t1001\tA",
    b"K\tF\t1000\tA",
    b"S\tA\tC",
    b"S\tF\tZ",
    b"W\tA\t11",
    b"W\tA\t13",
    b"W\tA\t",
    b"X\tA\t2\t1\t3\t7",
    b"X\tZ\t0\t0\t99\t0",
    b"X\tA\t1\t1\t3\t0",
    b"X\tA\t9\t9\t99\t0",
    b"X\tA\t3\t1\t99\t22",
    b"X\tA\t2\t1\t99\t5",
    b"X\tA\t2\t1\t99\t19",
    b"X\tA\t2\t1\t3\t07",
    b"Z",
    b"Z\t1",
    b"Z\t8",
    b"Z\t9",
    b"Z\t10",
    b"G",
    b"G\t1\tA\t0",
    b"G\t1\tA\t3",
    b"G\t0\tA\t2",
    b"G\t8\tI\t0",
    b"G\t1\tI\t0",
];

pub fn one_after_another(calls: &dyn Calls) {
    let mut full = prepared();
    *full.count() = COUNT_LIMIT as u32;
    let desks = [prepared(), full, with_pairs(128), with_pairs(0)]
        .into_iter()
        .flat_map(|desk| [desk, with_psi_open(&desk, b'B')]);
    let mut both = SideBySide::new(calls, &Desk::FRESH);
    for desk in desks {
        for line in LINES {
            both.start(&desk);
            both.line(line);
            for after in [
                &b"E"[..],
                b"T",
                b"U",
                b"L\tA",
                b"I\tA\tG",
                b"C\tG",
                b"Z\t0",
                b"H",
            ] {
                both.line(after);
            }
            both.start(&desk);
            both.job(Job {
                letter: line.first().copied().unwrap_or(0),
                ..Job::default()
            });
            both.line(b"M\t1\t1");
            both.line(line);
        }
    }
    both.tally.demand(
        1,
        &[
            "0", "1", "2", "3", "4", "5", "6F", "7F", "8", "9", "10", "11", "12", "16", "17",
            "X 1", "X 2", "X 3", "X 4", "X 5", "X 8", "X 16", "X 17", "18", "Z 1", "Z 2", "Z 18",
            "G 1", "G 2", "G 8", "G 18", "G 19", "H 0", "H 1", "H 2", "H 19",
        ],
    );
}

/// The prepared desk with a plan open that has so many pairs, all alike.
fn with_pairs(pairs: usize) -> Desk {
    let mut desk = with_psi_open(&prepared(), b'A');
    desk.words(8).fill(0);
    desk.words(8)[..pairs].fill(0x12);
    desk.words(8)[128..128 + pairs].fill(0x1);
    desk.blocks[8].pairs = pairs;
    desk
}
