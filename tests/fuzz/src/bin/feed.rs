//! The library's desk_feed beside the second implementation and beside desk_line. An
//! input is handed over in pieces that its lines decide, with buffers that may be too
//! short or have room for some of the replies; after each piece the whole desks must
//! agree, and at the end replies and desk must be those of the lines one by one.

#![no_main]

use desk_calls::calls::refusal_line;
use desk_calls::checks::side_by_side::SideBySide;
use desk_calls::values::LONGEST_REPLY;
use desk_calls::{Calls, Library};
use fuzz::{harness, lines};
use reference::LINE_BYTES;

harness!(tried);

fn tried(input: &[u8]) {
    let mut reader = Reader {
        both: SideBySide::new(&Library, &Library.fresh()),
        kept: Vec::new(),
        overlong: false,
        replies: Vec::new(),
    };
    let mut rest = lines(input).peekable();
    while let Some((line, chance)) = rest.next() {
        let end: &[u8] = if rest.peek().is_some() { b"\n" } else { b"" };
        let line = [line, end].concat();
        let (before, behind) = line.split_at(cut(&line, chance / 4));
        // two lines in four come with the next one, and one is cut
        reader.kept.extend(before);
        if chance % 4 == 0 {
            reader.hand_in(chance / 1024);
        }
        reader.kept.extend(behind);
        if chance % 4 == 1 {
            reader.hand_in(chance / 1024);
        }
    }
    reader.hand_in(3);
    if !reader.kept.is_empty() || reader.overlong {
        reader.kept.push(b'\n');
        reader.hand_in(3);
    }
    reader.beside_lines(input);
}

/// Where a line is cut: anywhere, and a long one half of the time where it gets too long.
fn cut(line: &[u8], chance: usize) -> usize {
    let anywhere = chance / 2 % (line.len() + 1);
    match chance % 2 {
        0 if line.len() > LINE_BYTES => LINE_BYTES - 1 + chance / 2 % 3,
        _ => anywhere,
    }
    .min(line.len())
}

/// Who hands an input in, and what is left of it.
struct Reader<'a> {
    both: SideBySide<'a>,
    /// What wasn't taken yet.
    kept: Vec<u8>,
    overlong: bool,
    replies: Vec<u8>,
}

impl Reader<'_> {
    /// Hands in what there is, until no whole line is left. A buffer that is too short
    /// comes first by chance, and a value that is no desk.
    fn hand_in(&mut self, chance: usize) {
        if chance % 16 == 0 {
            self.piece(chance / 16 % LONGEST_REPLY);
        }
        if chance % 16 == 1 {
            self.on_no_desk(chance / 16);
        }
        let more = [0, 1, 5, 12, 60, 5000, 40_000][chance / 16 % 7];
        self.piece(LONGEST_REPLY + more);
        while self.kept.contains(&b'\n') {
            self.piece(LONGEST_REPLY + more);
        }
    }

    fn piece(&mut self, room: usize) {
        let fed = self.both.feed_into(self.overlong, &self.kept, room);
        self.overlong = fed.overlong;
        self.kept.drain(..fed.taken);
        self.replies.extend(self.both.reply());
    }

    /// The piece on the desk with another sum of its pairs, which is refused.
    fn on_no_desk(&mut self, chance: usize) {
        let sound = *self.both.desk();
        let mut damaged = sound;
        damaged.control.pairs ^= 1 << (chance % 16);
        self.both.start(&damaged);
        let room = [0, LONGEST_REPLY - 1, LONGEST_REPLY][chance / 16 % 3];
        let fed = self.both.feed_into(self.overlong, &self.kept, room);
        assert_eq!(fed.number, 15, "what is no desk");
        self.both.start(&sound);
    }

    /// Fails unless desk_line answers the same.
    fn beside_lines(&self, input: &[u8]) {
        let (mut desk, mut replies) = (Library.fresh(), Vec::new());
        let mut out = [0; LONGEST_REPLY];
        for line in input.split_inclusive(|byte| *byte == b'\n') {
            let line = line.strip_suffix(b"\n").unwrap_or(line);
            let written = Library.line(&mut desk, line, &mut out);
            replies.extend(&out[..written.length]);
            replies.extend(refusal_line(written));
        }
        assert!(replies == self.replies, "the replies to single lines");
        assert_eq!(desk, *self.both.desk(), "the desk after single lines");
    }
}
