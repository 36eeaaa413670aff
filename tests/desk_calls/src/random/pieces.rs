//! Inputs of many records with lines of all lengths among them, the sizes of the
//! pieces that they are cut into, and the lengths of buffers for their replies.

use super::Rng;
use crate::values::LONGEST_REPLY;

/// A random session with some lines at the limit and beyond, some empty ones, and at
/// times no byte 10 at its end.
pub fn some_input(rng: &mut Rng, seed: u64) -> Vec<u8> {
    let session = sessions::session(seed);
    let mut input = Vec::new();
    for line in session.split_inclusive(|byte| *byte == b'\n') {
        match rng.below(60) {
            0 => input.extend(long_line(rng)),
            1 => input.push(b'\n'),
            _ => {}
        }
        input.extend(line);
    }
    if rng.chance(30) {
        input.extend(long_line(rng));
    }
    if rng.chance(50) && input.ends_with(b"\n") {
        input.pop();
    }
    input
}

/// A line that begins like a record, around 1,100 bytes long or far longer.
fn long_line(rng: &mut Rng) -> Vec<u8> {
    let start = *rng.pick(&[&b"W\tA\t"[..], b"W\tB\t1", b"M\t1\t", b"T", b"E", b""]);
    let length = match rng.below(3) {
        0 => rng.between(1090, 1110),
        1 => *rng.pick(&[1099, 1100, 1101, 1102]),
        _ => rng.between(1103, 6000),
    };
    let mut line = start.to_vec();
    line.resize(length, b'1');
    line.push(b'\n');
    line
}

/// How much of what is left of an input is in the next piece: nothing, a byte or two,
/// up to a byte 10 or behind it, around the limit of a line, or much.
pub fn some_size(rng: &mut Rng, left: &[u8]) -> usize {
    let end = left.iter().position(|byte| *byte == b'\n');
    let end = end.unwrap_or(left.len());
    let size = match rng.below(12) {
        0 => 0,
        1 => rng.between(1, 2),
        2 => end,
        3 => end + 1,
        4 => end / 2,
        5 => *rng.pick(&[1099, 1100, 1101, 1102]),
        6 | 7 => rng.below(40),
        8 | 9 => rng.below(600),
        _ => rng.below(9000),
    };
    size.min(left.len())
}

/// The length of a buffer: too short for a reply, just long enough, or longer.
pub fn some_room(rng: &mut Rng) -> usize {
    match rng.below(12) {
        0 => *rng.pick(&[0, 1, 5, 100, LONGEST_REPLY - 1]),
        1 => rng.below(LONGEST_REPLY),
        2..=5 => LONGEST_REPLY,
        6 => LONGEST_REPLY + 1,
        7..=9 => LONGEST_REPLY + rng.below(40),
        _ => rng.between(LONGEST_REPLY, 70_000),
    }
}
