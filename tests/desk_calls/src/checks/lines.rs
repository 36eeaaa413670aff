//! Lines as nobody types them: single bytes, bytes 10 and 0 within a line, every
//! byte for a slot, and lines at the limit of 1,100 bytes.

use super::side_by_side::SideBySide;
use crate::calls::Calls;
use crate::random::desks::{prepared, with_psi_open};
use crate::random::Rng;
use crate::values::Desk;

/// Records that are done on the prepared desk, and then one for an open plan.
const RECORDS: [&[u8]; 17] = [
    b"P\tF\t2\t1",
    b"F\tA\tB\tF",
    b"I\tA\tF",
    b"K\tA\t-12\tF",
    b"K\tB\t1000\tF",
    b"S\tA\tB",
    b"W\tA\t1122",
    b"W\tA\t11",
    b"L\tE",
    b"C\tA",
    b"T",
    b"U",
    b"X\tF\t2\t1\t3\t7",
    b"X\tA\t3\t2\t10\t2147483646",
    b"Z\t5",
    b"M\t1211\t2",
    b"E",
];

fn desks() -> [Desk; 3] {
    [Desk::FRESH, prepared(), with_psi_open(&prepared(), b'F')]
}

/// Single bytes, and each record with a byte put in, changed or left out.
pub fn of_any_bytes(calls: &dyn Calls) {
    let mut rng = Rng::new(301);
    let mut both = SideBySide::new(calls, &Desk::FRESH);
    for desk in desks() {
        both.start(&desk);
        both.line(b"");
        for byte in 0..=255 {
            both.start(&desk);
            both.line(&[byte]);
        }
        for record in RECORDS {
            both.start(&desk);
            both.line(record);
            for line in neighbours(&mut rng, record) {
                both.start(&desk);
                both.line(&line);
            }
        }
    }
    both.tally.demand(
        10,
        &["0", "1", "2", "4", "8", "9", "a block", "X 0", "X 1", "X 8"],
    );
}

/// The record with bytes 10, 0, 9, 13 and another put in at each place or
/// written over what stands there, and with each byte left out.
fn neighbours(rng: &mut Rng, record: &[u8]) -> Vec<Vec<u8>> {
    let mut lines = Vec::new();
    for byte in [10, 0, 9, 13, rng.number() as u8] {
        for place in 0..=record.len() {
            let (before, behind) = record.split_at(place);
            lines.push([before, &[byte], behind].concat());
            if !behind.is_empty() {
                lines.push([before, &[byte], &behind[1..]].concat());
                lines.push([before, &behind[1..]].concat());
            }
        }
    }
    lines
}

/// Lines and codes at their limits and one beyond.
pub fn at_the_limit(calls: &dyn Calls) {
    let mut both = SideBySide::new(calls, &Desk::FRESH);
    for desk in desks() {
        for length in [1024, 1099, 1100, 1101, 1102, 2200, 65_536, 70_000] {
            for start in [&b"W\tA\t"[..], b"M\t1\t", b"C\tA", b"T", b"E", b""] {
                for byte in [b'1', b'\t', 0, 10] {
                    both.start(&desk);
                    both.line(&filled(start, byte, length));
                }
            }
        }
        for digits in [1023, 1024, 1025, 1096, 1097] {
            for start in [&b"W\tA\t"[..], b"W\tA\t12", b"W\tD\t", b"W\tF\t"] {
                both.start(&desk);
                both.line(&filled(start, b'1', 4 + digits));
            }
        }
        for digits in [15, 16, 17] {
            both.start(&desk);
            let word = vec![b'1'; digits];
            both.line(&[b"M\t", &word[..], b"\t1"].concat());
            both.line(&[b"M\t1\t", &word[..]].concat());
        }
    }
    both.tally.demand(10, &["0", "1", "2", "4"]);
}

fn filled(start: &[u8], byte: u8, length: usize) -> Vec<u8> {
    let mut line = start.to_vec();
    line.resize(length, byte);
    line
}

/// Each byte in each place of a slot and in those of a station and of a right, on a
/// desk with all slots and none open.
pub fn for_every_slot(calls: &dyn Calls) {
    let mut both = SideBySide::new(calls, &Desk::FRESH);
    let desk = prepared();
    let mut of_station_0 = desk;
    of_station_0.control.station = 0;
    for byte in 0..=255 {
        let lines: [&[u8]; 15] = [
            &[b'C', 9, byte],
            &[b'L', 9, byte],
            &[b'I', 9, byte, 9, b'F'],
            &[b'I', 9, b'A', 9, byte],
            &[b'S', 9, byte, 9, b'A'],
            &[b'S', 9, b'A', 9, byte],
            &[b'F', 9, byte, 9, b'A', 9, b'F'],
            &[b'F', 9, b'A', 9, byte, 9, b'F'],
            &[b'F', 9, b'A', 9, b'B', 9, byte],
            &[b'K', 9, byte, 9, b'2', 9, b'F'],
            &[b'K', 9, b'B', 9, b'2', 9, byte],
            &[b'W', 9, byte, 9, b'1', b'2', b'1', b'1'],
            &[b'W', 9, byte, 9, b'1'],
            &[b'X', 9, byte, 9, b'2', 9, b'1', 9, b'3', 9, b'7'],
            &[b'Z', 9, byte],
        ];
        for line in lines {
            both.start(&desk);
            both.line(line);
        }
        let gifts: [&[u8]; 3] = [
            &[b'G', 9, byte, 9, b'A', 9, b'0'],
            &[b'G', 9, b'1', 9, byte, 9, b'0'],
            &[b'G', 9, b'1', 9, b'A', 9, byte],
        ];
        for line in gifts {
            both.start(&desk);
            both.line(line);
            both.start(&of_station_0);
            both.line(line);
        }
        both.start(&desk);
        both.line(&[b'P', 9, byte, 9, b'2', 9, b'1']);
        both.line(b"M\t1\t1");
        both.line(b"E");
    }
    both.tally.demand(2, &["0", "8", "9", "10", "1", "2", "18"]);
    both.tally.demand(8, &["Z 0", "G 0", "G 1", "G 8", "G 19"]);
}
