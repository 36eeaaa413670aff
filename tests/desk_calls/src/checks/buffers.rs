//! Every record that replies, with buffers that fit, are short by one, are empty
//! or have more room than is needed; with a plan open and without.

use sessions::SURVEYS;

use super::side_by_side::{SideBySide, AMPLE};
use crate::calls::Calls;
use crate::random::desks::{prepared, with_psi_open};
use crate::second::Second;
use crate::values::Desk;

/// Records on the prepared desk.
const LINES: [&[u8]; 23] = [
    b"F\tA\tB\tC",
    b"I\tE\tF",
    b"K\tA\t14\tA",
    b"K\tB\t0\tB",
    b"S\tA\tB",
    b"W\tA\t1122",
    b"L\tA",
    b"L\tE",
    b"C\tE",
    b"T",
    b"U",
    b"H",
    b"P\tF\t2\t1",
    b"W\tA\t11",
    b"W\tD\t1",
    b"W\tE\t1",
    b"Y",
    b"X",
    b"X\tA\t2\t1\t3\t7",
    b"X\tF\t9\t8\t15\t1",
    b"Z\t7",
    b"Z\t8",
    b"G\t1\tA\t0",
];

pub fn of_every_length(calls: &dyn Calls) {
    let mut both = SideBySide::new(calls, &Desk::FRESH);
    let open = with_psi_open(&prepared(), b'A');
    let deep_image = [b"W\tA\t12", &[b'1'; 1022][..]].concat();
    let on_open: [&[u8]; 4] = [b"E", b"M\t1\t1", b"T", b"M\t\t"];
    let lines = LINES.into_iter().chain([&deep_image[..]]);
    let of_closed = lines.map(|line| (prepared(), line));
    let of_open = on_open.iter().map(|line| (open, *line));
    let of_fresh: [&[u8]; 5] = [b"U", b"T", b"H", b"G\t1\tA\t0", b"G\t7\tH\t1"];
    let of_fresh = of_fresh.map(|line| (Desk::FRESH, line));
    let of_zero = [&b"H"[..], b"C\tE", b"K\tE\t0\tE", b"F\tA\tA\tE"];
    let of_zero = of_zero.map(|line| (of_station_0(), line));
    let of_others = of_fresh.into_iter().chain(of_zero);
    for (desk, line) in of_closed.chain(of_open).chain(of_others) {
        both.start(&desk);
        let length = both.line(line).length;
        let shorter = [length.saturating_sub(1), length / 2, 1, 0];
        for room in [&[length, length + 1, AMPLE][..], &shorter].concat() {
            both.start(&desk);
            both.line_into(line, room);
            // what a short buffer kept from being done can be done yet
            both.line(line);
            both.line(b"U");
            both.line(b"T");
            both.line(b"Z\t0");
            both.line(b"H");
        }
    }
    both.tally.demand(10, &["0", "1", "2", "14", "a block"]);
    both.tally.demand(3, &["H 0", "H 14", "H 19"]);
    both.tally.demand(10, SURVEYS);
}

/// The prepared desk as station 0 has it, with changes left to make.
fn of_station_0() -> Desk {
    let mut desk = prepared();
    desk.control.station = 0;
    desk.control.changes[0] = 5;
    desk
}

/// Blocks with buffers that have room for some of their lines, whole or in part:
/// none may be written unless all are.
pub fn of_every_line(calls: &dyn Calls) {
    let mut both = SideBySide::new(calls, &Desk::FRESH);
    let desk = prepared();
    for line in [&b"W\tA\t11"[..], b"W\tA\t1", b"W\tD\t1", b"W\tE\t1"] {
        let (mut rehearsed, mut reply) = (desk, [0; AMPLE]);
        let written = Second::default().line(&mut rehearsed, line, &mut reply);
        let ends = (0..written.length).filter(|place| reply[*place] == b'\n');
        for end in ends {
            for room in end..end + 3 {
                both.start(&desk);
                both.line_into(line, room);
            }
        }
    }
    both.tally.demand(4, &["14", "a block"]);
}
