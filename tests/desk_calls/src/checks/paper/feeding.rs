//! What include/desk.h says of a piece of input: where it may be cut, what becomes of
//! a line that is too long, where the call stops, and what it refuses. Nothing here
//! asks the second implementation.

use super::BLOCK;
use crate::calls::Calls;
use crate::values::{Desk, Fed, LONGEST_REPLY};

/// The session of document 01, line by line, with the replies that E1 and E7 give.
const SESSION: [(&str, &str); 10] = [
    ("P\tA\t2\t1\n", ""),
    ("M\t111\t11\n", ""),
    ("M\t112\t121\n", ""),
    ("M\t12\t122\n", ""),
    ("E\n", "ok\t3\n"),
    ("W\tA\t1122\n", "ok\t1212\t2\n"),
    ("K\tA\t2\tB\n", "ok\t4\n"),
    (
        "L\tB\n",
        "P\tB\t2\t1\nM\t1111\t11\nM\t1112\t121\nM\t112\t1221\nM\t12\t1222\nE\n",
    ),
    ("W\tA\t11\n", BLOCK),
    ("T\n", "ok\t2\n"),
];

/// "Lines hold at most 1,100 bytes."
const LONGEST_LINE: usize = 1100;

/// More room than the pieces here need.
const AMPLE: usize = 3 * LONGEST_REPLY;

/// A piece of input as it is handed in: with `overlong`, and a buffer of so many bytes.
#[derive(Clone, Copy)]
struct Piece<'a> {
    overlong: bool,
    input: &'a [u8],
    room: usize,
}

impl<'a> Piece<'a> {
    fn of(input: &'a [u8]) -> Piece<'a> {
        Piece {
            overlong: false,
            input,
            room: AMPLE,
        }
    }

    fn overlong(self) -> Piece<'a> {
        Piece {
            overlong: true,
            ..self
        }
    }

    fn with_room(self, room: usize) -> Piece<'a> {
        Piece { room, ..self }
    }

    /// Asserts that so many bytes are taken, these replies written and nothing behind
    /// them, and what `overlong` is then.
    fn takes(self, calls: &dyn Calls, desk: &mut Desk, taken: usize, replies: &str, after: bool) {
        let mut out = vec![b'.'; self.room];
        let fed = calls.feed(desk, self.overlong, self.input, &mut out);
        let said = self.input.escape_ascii();
        let expected = Fed {
            number: 0,
            overlong: after,
            taken,
            length: replies.len(),
        };
        assert_eq!(fed, expected, "to {said}");
        let (written, behind) = out.split_at(replies.len());
        assert_eq!(
            written.escape_ascii().to_string(),
            replies.as_bytes().escape_ascii().to_string(),
            "to {said}"
        );
        assert!(
            behind.iter().all(|byte| *byte == b'.'),
            "behind the replies to {said}"
        );
    }

    /// Asserts that all of it is taken.
    fn taken(self, calls: &dyn Calls, desk: &mut Desk, replies: &str) {
        self.takes(calls, desk, self.input.len(), replies, false);
    }

    /// Asserts that it is refused with this number, and that all is left as it was.
    fn refused(self, calls: &dyn Calls, desk: &Desk, number: u8) {
        let (mut after, mut out) = (*desk, vec![b'.'; self.room]);
        let fed = calls.feed(&mut after, self.overlong, self.input, &mut out);
        let said = self.input.escape_ascii();
        assert_eq!(fed, Fed::refused(number, self.overlong), "to {said}");
        assert_eq!(after, *desk, "after {said}");
        assert!(
            out.iter().all(|byte| *byte == b'.'),
            "the buffer after {said}"
        );
    }
}

/// The desk after some lines, by one call for each.
fn after(calls: &dyn Calls, lines: &str) -> Desk {
    let (mut desk, mut out) = (calls.fresh(), [0; LONGEST_REPLY]);
    for line in lines.lines() {
        calls.line(&mut desk, line.as_bytes(), &mut out);
    }
    desk
}

/// The session in one piece, and in two: what stands behind the last byte 10 of the
/// first isn't taken, and is handed in again in front of the second.
pub fn session(calls: &dyn Calls) {
    let lines = SESSION.map(|(line, _)| line);
    let replies = SESSION.map(|(_, reply)| reply);
    let session = lines.concat();
    let done = after(calls, &session);
    let mut desk = calls.fresh();
    Piece::of(session.as_bytes()).taken(calls, &mut desk, &replies.concat());
    assert_eq!(desk, done, "after the session in one piece");
    for cut in 0..=session.len() {
        let count = session[..cut].matches('\n').count();
        let whole = lines[..count].concat();
        let mut desk = calls.fresh();
        let first = Piece::of(&session.as_bytes()[..cut]);
        first.takes(
            calls,
            &mut desk,
            whole.len(),
            &replies[..count].concat(),
            false,
        );
        assert_eq!(
            desk,
            after(calls, &whole),
            "after {cut} bytes of the session"
        );
        let second = Piece::of(&session.as_bytes()[whole.len()..]);
        second.taken(calls, &mut desk, &replies[count..].concat());
        assert_eq!(desk, done, "after the session in two pieces, cut at {cut}");
    }
    Piece::of(b"").taken(calls, &mut desk, "");
    assert_eq!(desk, done, "after an empty piece");
}

/// Refusals between lines: each is written, drops the open plan and nothing else.
pub fn refusals(calls: &dyn Calls) {
    let input =
        "P\tA\t2\t1\nM\t1\t1\nT\nE\n\nP\tA\t2\t1\nE\nP\tA\t2\t1\nM\t1\t1\nM\t1\t1\nE\nW\tA\t1\nT\n";
    let replies = "no\t2\nno\t2\nno\t1\nno\t7\tF\nno\t6\tF\nno\t9\nok\t0\n";
    let mut desk = calls.fresh();
    Piece::of(input.as_bytes()).taken(calls, &mut desk, replies);
    assert_eq!(desk, calls.fresh(), "after refusals alone");
    let input = "P\tA\t2\t1\nM\t1\t1\nQ\nM\t1\t1\nP\tB\t2\t1\nM\t1\t1\nE\nZ\t1\nH\nG\t2\tA\t0\nT\n";
    let replies = "no\t1\nno\t2\nok\t1\nok\nno\t19\nno\t19\nok\t0\n";
    Piece::of(input.as_bytes()).taken(calls, &mut desk, replies);
    let done = "P\tB\t2\t1\nM\t1\t1\nE\nZ\t1\n";
    assert_eq!(desk, after(calls, done), "after refusals between lines");
    // a plan stays open from one piece to the next, and none of the two is dropped
    let mut desk = calls.fresh();
    Piece::of(b"P\tC\t2\t1\nM\t1").takes(calls, &mut desk, 8, "", false);
    assert_eq!(desk, after(calls, "P\tC\t2\t1"), "with a plan open");
    Piece::of(b"M\t1\t1\nE\n").taken(calls, &mut desk, "ok\t1\n");
}

/// Lines at the limit and beyond, in one piece and in several.
pub fn long_lines(calls: &dyn Calls) {
    let opened = after(calls, "P\tA\t2\t1\n");
    let line = |length: usize| [b"W\tA\t", &vec![b'1'; length - 4][..]].concat();
    for (length, reply) in [
        (1099, "no\t9\n"),
        (1100, "no\t9\n"),
        (1101, "no\t1\n"),
        (5000, "no\t1\n"),
    ] {
        let mut desk = calls.fresh();
        let whole = [&line(length)[..], b"\nT\n"].concat();
        Piece::of(&whole).taken(calls, &mut desk, &format!("{reply}ok\t0\n"));
        // while the line may still be one it is left, and once it can't be it is taken
        let mut desk = opened;
        let begun = [b"T\n", &line(length)[..]].concat();
        let long = length > LONGEST_LINE;
        let taken = if long { begun.len() } else { 2 };
        Piece::of(&begun).takes(calls, &mut desk, taken, "no\t2\n", long);
    }
    // of a long line nothing is kept: its end is one refusal, which drops the plan
    let mut desk = opened;
    let long = vec![b'x'; LONGEST_LINE + 1];
    Piece::of(&long).takes(calls, &mut desk, long.len(), "", true);
    assert_eq!(desk, opened, "while a long line is read");
    for more in [&b""[..], b"T", b"E", &long, &long[1..]] {
        Piece::of(more)
            .overlong()
            .takes(calls, &mut desk, more.len(), "", true);
        assert_eq!(desk, opened, "while a long line is read");
    }
    for end in [&b"\n"[..], b"T\n", b"E\n"] {
        let mut desk = opened;
        Piece::of(end).overlong().taken(calls, &mut desk, "no\t1\n");
        assert_eq!(desk, calls.fresh(), "behind a long line");
    }
    Piece::of(b"T\nT\n\nT\nT").overlong().takes(
        calls,
        &mut desk,
        7,
        "no\t1\nok\t0\nno\t1\nok\t0\n",
        false,
    );
    let ends = [&b"T\n"[..], &long].concat();
    Piece::of(&ends)
        .overlong()
        .takes(calls, &mut desk, ends.len(), "no\t1\n", true);
    // without `overlong` the same bytes are a line of their own
    let mut desk = opened;
    Piece::of(b"M\t1\t1\nE\n").taken(calls, &mut desk, "ok\t1\n");
}

/// "Lines are answered as long as DESK_LONGEST_REPLY bytes of the buffer for replies
/// are left."
pub fn room(calls: &dyn Calls) {
    let input = b"T\nT\nT\nT";
    for (more, answered) in [
        (0, 1),
        (1, 1),
        (4, 1),
        (5, 2),
        (9, 2),
        (10, 3),
        (11, 3),
        (5000, 3),
    ] {
        let mut desk = calls.fresh();
        let replies = "ok\t0\n".repeat(answered);
        let piece = Piece::of(input).with_room(LONGEST_REPLY + more);
        piece.takes(calls, &mut desk, 2 * answered, &replies, false);
    }
    // lines without a reply leave the room as it is
    let mut desk = calls.fresh();
    least(b"P\tA\t2\t1\nM\t1\t1\nE\nT\n").takes(calls, &mut desk, 16, "ok\t1\n", false);
    assert_eq!(desk, after(calls, "P\tA\t2\t1\nM\t1\t1\nE\n"));
    // a refusal takes room as every reply does, that of a long line too
    least(b"Q\nT\n").takes(calls, &mut desk, 2, "no\t1\n", false);
    least(b"T\nT\n")
        .overlong()
        .takes(calls, &mut desk, 2, "no\t1\n", false);
    // behind a stop nothing is taken, of a line that is too long either
    for end in [&b""[..], b"\nT\n"] {
        let long = [b"T\n", &[b'x'; 2000][..], end].concat();
        least(&long).takes(calls, &mut desk, 2, "ok\t1\n", false);
        least(&long)
            .overlong()
            .takes(calls, &mut desk, 2, "no\t1\n", false);
    }
    // a plan that was opened stays open where the call stops
    let mut desk = calls.fresh();
    least(b"T\nP\tA\t2\t1\n").takes(calls, &mut desk, 2, "ok\t0\n", false);
    least(b"P\tA\t2\t1\nM\t1\t1\n").taken(calls, &mut desk, "");
    assert_eq!(desk, after(calls, "P\tA\t2\t1\nM\t1\t1\n"));
}

/// A piece with as little room as is taken.
fn least(input: &[u8]) -> Piece<'_> {
    Piece::of(input).with_room(LONGEST_REPLY)
}

/// "Refused with 15 where the struct is no desk, and then with 14 where the buffer has
/// fewer bytes than DESK_LONGEST_REPLY, whatever the input; these two leave desk and
/// buffer as they were, an open plan too."
pub fn refused(calls: &dyn Calls) {
    let long = [b'x'; LONGEST_LINE + 1];
    let inputs: [&[u8]; 6] = [b"", b"T", b"T\n", b"E\nT\n", b"Q\n", &long];
    for desk in [calls.fresh(), after(calls, "P\tA\t2\t1\nM\t1\t1\n")] {
        let mut no_desk = desk;
        no_desk.control.pairs = 1;
        for input in inputs {
            for room in [0, 1, 5, 100, LONGEST_REPLY - 1, LONGEST_REPLY, AMPLE] {
                for piece in [Piece::of(input), Piece::of(input).overlong()] {
                    let piece = piece.with_room(room);
                    piece.refused(calls, &no_desk, 15);
                    if room < LONGEST_REPLY {
                        piece.refused(calls, &desk, 14);
                    }
                }
            }
        }
    }
}
