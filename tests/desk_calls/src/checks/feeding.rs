//! Pieces of input: random sessions cut anywhere, with buffers of all lengths and
//! other calls between, beside the second implementation; lines at the limit and far
//! beyond it; buffers with room for some of the replies; and values that are no desk.
//! Whatever the cuts, replies and desk are those of the same input in one piece, and
//! of its lines one by one.

use library::checks::tally::Tally;
use reference::{COUNT_LIMIT, LINE_BYTES};

use super::side_by_side::SideBySide;
use crate::calls::{refusal_line, Calls};
use crate::random::damage::{all, damaged};
use crate::random::desks::{prepared, some_desk, with_psi_open};
use crate::random::jobs::some_job;
use crate::random::pieces::{some_input, some_room, some_size};
use crate::random::Rng;
use crate::values::{Desk, LONGEST_REPLY, SLOTS, STATIONS};

/// How many sessions are cut beside the second implementation.
const SESSIONS: u64 = 72;

/// What has to come up in them.
const KINDS: [&str; 12] = [
    "fed 0",
    "fed 14",
    "fed 15",
    "fed 14, a plan open",
    "fed 15, a plan open",
    "fed, stopped",
    "fed, a line begun",
    "fed, several replies",
    "fed, a refusal",
    "fed, overlong begins",
    "fed, overlong goes on",
    "fed, overlong ends",
];

/// Sessions in pieces of any size with buffers of any length, and lines, jobs and
/// damaged desks between them.
pub fn of_sessions(calls: &dyn Calls) {
    let mut tally = Tally::default();
    for seed in 0..SESSIONS {
        let mut both = SideBySide::new(calls, &limited(seed));
        std::mem::swap(&mut tally, &mut both.tally);
        run(seed, &mut both);
        std::mem::swap(&mut tally, &mut both.tally);
    }
    tally.demand(20, &KINDS);
    tally.demand(5, &["fed 14, overlong", "fed 15, overlong"]);
}

/// A fresh desk, in every third session with stations near their limit.
fn limited(seed: u64) -> Desk {
    let mut desk = Desk::FRESH;
    if seed % 3 == 0 {
        desk.control.changes = [COUNT_LIMIT as u32 - 5; 8];
    }
    desk
}

fn run(seed: u64, both: &mut SideBySide) {
    let rng = &mut Rng::new(7000 + seed);
    let input = some_input(rng, seed);
    let mut rest = &input[..];
    let (mut kept, mut overlong) = (Vec::new(), false);
    while !rest.is_empty() || kept.contains(&b'\n') {
        let (piece, behind) = rest.split_at(some_size(rng, rest));
        kept.extend(piece);
        rest = behind;
        between(rng, both, overlong, &kept);
        let fed = both.feed_into(overlong, &kept, some_room(rng));
        overlong = fed.overlong;
        kept.drain(..fed.taken);
    }
    if !kept.is_empty() || overlong {
        kept.push(b'\n');
        both.feed_into(overlong, &kept, LONGEST_REPLY);
    }
}

/// Now and then another call before a piece, or the piece on a value that is no desk.
/// Lines and jobs come seldom while a plan is open, which they drop.
fn between(rng: &mut Rng, both: &mut SideBySide, overlong: bool, piece: &[u8]) {
    let opened = both.desk().opened != 0;
    if rng.chance(2) {
        let sound = *both.desk();
        both.start(&spoiled(rng, &sound));
        both.feed_into(overlong, piece, some_room(rng));
        both.feed_into(overlong, piece, rng.below(LONGEST_REPLY));
        both.start(&sound);
    }
    if rng.below(if opened { 400 } else { 20 }) == 0 {
        both.job(some_job(rng));
    }
    if rng.below(if opened { 400 } else { 20 }) == 0 {
        both.line(*rng.pick(&[&b"T"[..], b"U", b"H", b"Q", b"P\tA\t2\t1", b"Z\t0"]));
    }
}

/// The desk with one field that no desk has.
fn spoiled(rng: &mut Rng, desk: &Desk) -> Desk {
    let mut spoiled = *desk;
    let control = &mut spoiled.control;
    match rng.below(5) {
        0 => control.pairs ^= 1 << rng.below(16),
        1 => control.station = 8 + rng.below(1000) as u32,
        2 => control.changes[rng.below(STATIONS)] = COUNT_LIMIT as u32 + 1,
        3 => control.put_right(rng.between(1, STATIONS - 1), rng.below(SLOTS), 3),
        _ => spoiled.opened = *rng.pick(b"@Ia\xff"),
    }
    spoiled
}

/// What some input is answered with, and the desk behind it.
type Outcome = (Vec<u8>, Box<Desk>);

/// Each session line by line, in one piece and cut in several ways, all by the same
/// offer; and the second implementation's replies to it.
pub fn cut_anywhere(calls: &dyn Calls) {
    for seed in SESSIONS..SESSIONS + 48 {
        let rng = &mut Rng::new(7000 + seed);
        let input = some_input(rng, seed);
        let by_lines = line_by_line(calls, &input);
        let expected = reference::session(&input);
        assert!(by_lines.0 == expected, "lines of session {seed}");
        let room = expected.len() + LONGEST_REPLY;
        let ways = [
            (
                "one piece",
                in_pieces(calls, &input, |_| (usize::MAX, room)),
            ),
            (
                "a buffer of 1,101 bytes for input",
                in_pieces(calls, &input, |kept| (LINE_BYTES + 1 - kept, LONGEST_REPLY)),
            ),
            (
                "pieces of 97 bytes",
                in_pieces(calls, &input, |_| (97, LONGEST_REPLY + 7)),
            ),
            (
                "pieces of any size",
                in_pieces(calls, &input, |_| {
                    (some_size(rng, &input), LONGEST_REPLY + rng.below(9000))
                }),
            ),
        ];
        for (way, outcome) in ways {
            assert!(
                outcome.0 == by_lines.0,
                "replies to session {seed} in {way}"
            );
            assert!(
                outcome.1 == by_lines.1,
                "the desk after session {seed} in {way}"
            );
        }
    }
}

/// The lines of an input one by one; one that is too long is handed over as it is.
fn line_by_line(calls: &dyn Calls, input: &[u8]) -> Outcome {
    let (mut desk, mut replies) = (Box::new(calls.fresh()), Vec::new());
    let mut out = vec![0; LONGEST_REPLY];
    for line in input.split_inclusive(|byte| *byte == b'\n') {
        let line = line.strip_suffix(b"\n").unwrap_or(line);
        let written = calls.line(&mut desk, line, &mut out);
        replies.extend(&out[..written.length]);
        replies.extend(refusal_line(written));
    }
    (replies, desk)
}

/// An input in pieces, each of the size and with the room that is said for as many
/// bytes as are kept of those before. No more than a line is ever kept.
fn in_pieces(
    calls: &dyn Calls,
    input: &[u8],
    mut way: impl FnMut(usize) -> (usize, usize),
) -> Outcome {
    let (mut desk, mut replies) = (Box::new(calls.fresh()), Vec::new());
    let (mut rest, mut kept, mut overlong) = (input, Vec::new(), false);
    let mut ended = false;
    while !ended {
        let (size, room) = way(kept.len());
        let (piece, behind) = rest.split_at(size.min(rest.len()));
        kept.extend(piece);
        ended = rest.is_empty();
        if ended && (!kept.is_empty() || overlong) {
            kept.push(b'\n');
        }
        rest = behind;
        let mut out = vec![0; room];
        loop {
            let fed = calls.feed(&mut desk, overlong, &kept, &mut out);
            assert_eq!(fed.number, 0, "a piece of a sound session");
            replies.extend(&out[..fed.length]);
            kept.drain(..fed.taken);
            overlong = fed.overlong;
            if !kept.contains(&b'\n') {
                break;
            }
            assert!(fed.taken > 0, "a call with room takes a line");
        }
        assert!(kept.len() <= LINE_BYTES, "no more than a line is kept");
    }
    assert!(kept.is_empty() && !overlong, "the last line is taken");
    (replies, desk)
}

/// Lines at the limit and far beyond, in pieces that are cut around it, with and
/// without `overlong`.
pub fn of_long_lines(calls: &dyn Calls) {
    let mut both = SideBySide::new(calls, &Desk::FRESH);
    let desks = [prepared(), with_psi_open(&prepared(), b'F')];
    let starts: [&[u8]; 5] = [b"W\tA\t", b"M\t1\t", b"E", b"T", b""];
    for length in [0, 1, 1099, 1100, 1101, 1102, 2202, 3400, 70_000] {
        for start in starts {
            let mut input = start.to_vec();
            input.resize(length.max(start.len()), b'1');
            let end = input.len();
            input.extend(b"\nT\nE\nT");
            for cut in [0, 1, 1099, 1100, 1101, 1102, end, end + 1, end + 2] {
                let cut = cut.min(input.len());
                for (desk, first) in [(0, false), (1, false), (1, true)] {
                    both.start(&desks[desk]);
                    in_two(&mut both, first, &input, cut, false);
                    both.start(&desks[desk]);
                    in_two(&mut both, first, &input, cut, true);
                }
            }
        }
    }
    both.tally.demand(20, &KINDS[5..]);
}

/// A piece up to the cut, and then what wasn't taken with the rest of the input: with
/// `overlong` as it was handed back, or the other way round.
fn in_two(both: &mut SideBySide, overlong: bool, input: &[u8], cut: usize, turned: bool) {
    let fed = both.feed_into(overlong, &input[..cut], LONGEST_REPLY + 20);
    let fed = both.feed_into(fed.overlong != turned, &input[fed.taken..], LONGEST_REPLY);
    both.feed_into(fed.overlong, b"T\nU\n", LONGEST_REPLY);
}

/// Buffers with just enough room for some of the replies to a piece, one byte more and
/// one less, and with too little for any.
pub fn of_every_room(calls: &dyn Calls) {
    let mut both = SideBySide::new(calls, &Desk::FRESH);
    let closed = b"T\nL\tE\nQ\nU\nP\tF\t2\t1\nM\t1\t1\nE\nW\tE\t1\n\nC\tF\nW\tD\t1\nT\nT";
    let open = b"M\t1\t1\nE\nT\nW\tE\t1\nP\tA\t2\t1\nT\nM\t1\t1\nU\n";
    let long = [b"T\nT\n", &[b'1'; 1200][..]].concat();
    let pieces = [
        (prepared(), &closed[..]),
        (prepared(), &long),
        (with_psi_open(&prepared(), b'F'), &open[..]),
    ];
    for (desk, piece) in pieces {
        for overlong in [false, true] {
            both.start(&desk);
            both.feed_into(overlong, piece, 10 * LONGEST_REPLY);
            let replies = both.reply().to_vec();
            let ends = (0..replies.len()).filter(|place| replies[*place] == b'\n');
            for end in ends {
                for room in [end, end + 1, end + 2] {
                    both.start(&desk);
                    let fed = both.feed_into(overlong, piece, LONGEST_REPLY + room);
                    let left = &piece[fed.taken..];
                    both.feed_into(fed.overlong, left, LONGEST_REPLY + room);
                }
            }
            for room in [0, 1, 5, 30, 5000, LONGEST_REPLY - 2, LONGEST_REPLY - 1] {
                for input in [piece, b"", b"T", &[b'1'; 1200]] {
                    both.start(&desk);
                    both.feed_into(overlong, input, room);
                    // what a short buffer kept from being done can be done yet
                    both.feed_into(overlong, input, LONGEST_REPLY);
                }
            }
        }
    }
    both.tally.demand(
        10,
        &["fed 0", "fed 14", "fed, stopped", "fed, a line begun"],
    );
    both.tally
        .demand(10, &["fed 14, a plan open", "fed 14, overlong"]);
}

/// Every kind of damage, with any piece, any buffer and `overlong` or not.
pub fn of_damaged(calls: &dyn Calls) {
    let mut rng = Rng::new(7900);
    let mut both = SideBySide::new(calls, &Desk::FRESH);
    let desks = [prepared(), with_psi_open(&prepared(), b'C')];
    let random: Vec<Desk> = (0..6).map(|_| some_desk(&mut rng)).collect();
    let pieces: [&[u8]; 7] = [
        b"",
        b"T",
        b"T\nU\n",
        b"E\n",
        b"C\tA\nT\n",
        b"\n",
        &[b'1'; 1101],
    ];
    for desk in desks.iter().chain(&random) {
        for damage in all() {
            let spoiled = damaged(&mut rng, desk, damage);
            both.start(&spoiled);
            for piece in pieces {
                for room in [0, LONGEST_REPLY - 1, LONGEST_REPLY, 3 * LONGEST_REPLY] {
                    let fed = both.feed_into(rng.chance(50), piece, room);
                    assert_eq!(fed.number, 15, "{}", damage.0);
                }
            }
            assert!(*both.desk() == spoiled, "{}", damage.0);
        }
    }
    both.tally
        .demand(100, &["fed 15", "fed 15, a plan open", "fed 15, overlong"]);
}
