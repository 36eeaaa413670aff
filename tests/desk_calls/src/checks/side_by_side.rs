//! A desk under the calls and the same desk under the second implementation:
//! each call is made on both, and the answers, all that was lent and all of both
//! desks are compared. The lent buffer is a part of a larger room, filled with
//! a pattern, so that a byte behind the reply, outside the buffer, or written in
//! a refusal shows.

use std::mem::MaybeUninit;

use library::checks::tally::Tally;
use sessions::SURVEYS;

use crate::calls::Calls;
use crate::second::Second;
use crate::values::{Desk, Done, Fed, Job, Written, LONGEST_REPLY};

/// The bytes of the room before and behind the buffer.
const GUARD: usize = 64;

/// More than any reply needs.
pub const AMPLE: usize = LONGEST_REPLY + 400;

pub struct SideBySide<'a> {
    calls: &'a dyn Calls,
    second: Second,
    desk: Box<Desk>,
    expected: Desk,
    /// What the last line or piece wrote.
    reply: Vec<u8>,
    /// The calls made, which vary the pattern of the room.
    made: usize,
    pub tally: Tally,
}

impl<'a> SideBySide<'a> {
    pub fn new(calls: &'a dyn Calls, desk: &Desk) -> SideBySide<'a> {
        SideBySide {
            calls,
            second: Second::default(),
            desk: placed(desk, 0),
            expected: *desk,
            reply: Vec::new(),
            made: 0,
            tally: Tally::default(),
        }
    }

    /// Puts another desk in the place of both. The padding between its fields
    /// is filled anew each time.
    pub fn start(&mut self, desk: &Desk) {
        self.desk = placed(desk, self.made as u8);
        self.expected = *desk;
    }

    pub fn desk(&self) -> &Desk {
        &self.expected
    }

    /// What the last line or piece wrote, nothing where it was refused.
    pub fn reply(&self) -> &[u8] {
        &self.reply
    }

    pub fn is_desk(&mut self) -> bool {
        let (is, expected) = (
            self.calls.is_desk(&self.desk),
            self.second.is_desk(&self.expected),
        );
        assert_eq!(is, expected, "whether this is a desk: {:?}", self.expected);
        self.tally
            .count(if is { "is a desk" } else { "is no desk" });
        is
    }

    /// The line with more room than it needs.
    pub fn line(&mut self, line: &[u8]) -> Written {
        self.line_into(line, AMPLE)
    }

    /// The line with a buffer of this length.
    pub fn line_into(&mut self, line: &[u8], length: usize) -> Written {
        self.made += 1;
        let before = self.expected;
        let (mut room, mut expected_room) = (self.room(length), self.room(length));
        let lent = GUARD..GUARD + length;
        let read = line.to_vec();
        let answer = self
            .calls
            .line(&mut self.desk, &read, &mut room[lent.clone()]);
        let expected = self
            .second
            .line(&mut self.expected, line, &mut expected_room[lent]);
        let asked = || {
            let line = line.escape_ascii();
            format!("\"{line}\" with a buffer of {length} bytes on {before:?}")
        };
        assert_eq!(answer, expected, "to {}", asked());
        assert!(read == line, "the line is changed by {}", asked());
        let different = room.iter().zip(&expected_room).position(|(a, b)| a != b);
        assert!(
            different.is_none(),
            "a byte differs in the room of a buffer at {GUARD}, at {different:?}, to {}",
            asked()
        );
        assert!(
            *self.desk == self.expected,
            "the desk after {}\nis {:?}\nand should be {:?}",
            asked(),
            self.desk,
            self.expected
        );
        self.reply = room[GUARD..GUARD + answer.length].to_vec();
        self.count_lines(line);
        self.count_own(line, answer.number);
        self.count(answer.number, answer.column);
        answer
    }

    /// A piece of input with a buffer of this length.
    pub fn feed_into(&mut self, overlong: bool, input: &[u8], length: usize) -> Fed {
        self.made += 1;
        let before = self.expected;
        let (mut room, mut expected_room) = (self.room(length), self.room(length));
        let lent = GUARD..GUARD + length;
        let read = input.to_vec();
        let answer = self
            .calls
            .feed(&mut self.desk, overlong, &read, &mut room[lent.clone()]);
        let expected = self.second.feed(
            &mut self.expected,
            overlong,
            input,
            &mut expected_room[lent],
        );
        let asked = || {
            let (input, long) = (
                input.escape_ascii(),
                if overlong { ", overlong," } else { "" },
            );
            format!("\"{input}\"{long} with a buffer of {length} bytes on {before:?}")
        };
        assert_eq!(answer, expected, "to the piece {}", asked());
        assert!(read == input, "the piece is changed by {}", asked());
        let different = room.iter().zip(&expected_room).position(|(a, b)| a != b);
        assert!(
            different.is_none(),
            "a byte differs in the room of a buffer at {GUARD}, at {different:?}, to the piece {}",
            asked()
        );
        assert!(
            *self.desk == self.expected,
            "the desk after the piece {}\nis {:?}\nand should be {:?}",
            asked(),
            self.desk,
            self.expected
        );
        self.reply = room[GUARD..GUARD + answer.length].to_vec();
        self.count_piece(
            overlong,
            &input[answer.taken..],
            &answer,
            before.opened != 0,
        );
        answer
    }

    pub fn job(&mut self, job: Job) -> Done {
        self.made += 1;
        let before = self.expected;
        let answer = self.calls.job(&mut self.desk, job);
        let expected = self.second.job(&mut self.expected, job);
        assert_eq!(answer, expected, "to {job:?} on {before:?}");
        assert!(
            *self.desk == self.expected,
            "the desk after {job:?} on {before:?}\nis {:?}\nand should be {:?}",
            self.desk,
            self.expected
        );
        self.count_own(&[job.letter], answer.number);
        self.count(answer.number, answer.column);
        answer
    }

    /// Counts an answer to X, Z, G or H by itself: most of its numbers others have too.
    fn count_own(&mut self, record: &[u8], number: u8) {
        let (letter, rest) = record.split_first().unwrap_or((&0, &[]));
        if b"XZGH".contains(letter) && matches!(rest, [] | [b'\t', ..]) {
            let letter = char::from(*letter);
            self.tally.count(format!("{letter} {number}"));
        }
    }

    /// Counts what the lines of a reply show: a block of W, slots of U that don't
    /// stand by their letters, and slots of U with as many pairs.
    fn count_lines(&mut self, line: &[u8]) {
        let block = line.starts_with(b"W") && self.reply.starts_with(b"B\t");
        self.tally.count_if(block, "a block");
        if line == b"U" {
            let seen = sessions::tally(&self.reply);
            for kind in SURVEYS {
                self.tally.count_if(seen.count(kind) > 0, kind);
            }
        }
    }

    /// Counts an answer to a piece: its number, why it took no more than it did, and
    /// what became of a line that is too long.
    fn count_piece(&mut self, overlong: bool, left: &[u8], answer: &Fed, opened: bool) {
        let number = answer.number;
        self.tally.count(format!("fed {number}"));
        if number != 0 {
            self.tally
                .count_if(opened, &format!("fed {number}, a plan open"));
            self.tally
                .count_if(overlong, &format!("fed {number}, overlong"));
            return;
        }
        let stopped = left.contains(&b'\n');
        let replies = self.reply.split_inclusive(|byte| *byte == b'\n').count();
        let refused = self.reply.windows(3).any(|bytes| bytes == b"no\t");
        self.tally.count_if(stopped, "fed, stopped");
        self.tally
            .count_if(!stopped && !left.is_empty(), "fed, a line begun");
        self.tally.count_if(replies > 1, "fed, several replies");
        self.tally.count_if(refused, "fed, a refusal");
        match (overlong, answer.overlong) {
            (false, true) => self.tally.count("fed, overlong begins"),
            (true, true) => self.tally.count("fed, overlong goes on"),
            (true, false) => self.tally.count("fed, overlong ends"),
            (false, false) => {}
        }
    }

    /// Counts an answer: its number, with the column if it has one.
    fn count(&mut self, number: u8, column: u8) {
        let column = match column {
            0 => String::new(),
            letter => char::from(letter).into(),
        };
        self.tally.count(format!("{number}{column}"));
    }

    fn room(&self, length: usize) -> Vec<u8> {
        let bytes = 0..length + 2 * GUARD;
        bytes
            .map(|place| (place * 151 + self.made * 59) as u8)
            .collect()
    }
}

/// The desk in memory whose padding has this byte: "equal desks are equal
/// structs" speaks of the fields, and no call may look between them.
fn placed(desk: &Desk, padding: u8) -> Box<Desk> {
    let mut place: Box<MaybeUninit<Desk>> = Box::new(MaybeUninit::uninit());
    // SAFETY: the place is ours and any bytes make numbers; the fields are
    // written one by one so that nothing else is.
    unsafe {
        place.as_mut_ptr().write_bytes(padding, 1);
        let placed = &mut *place.as_mut_ptr();
        for (block, value) in placed.blocks.iter_mut().zip(&desk.blocks) {
            block.arity = value.arity;
            block.roots = value.roots;
            block.pairs = value.pairs;
        }
        placed.opened = desk.opened;
        placed.control.station = desk.control.station;
        placed.control.changes = desk.control.changes;
        placed.control.rights = desk.control.rights;
        placed.control.pairs = desk.control.pairs;
        placed.columns = desk.columns;
        Box::from_raw(Box::into_raw(place).cast())
    }
}
