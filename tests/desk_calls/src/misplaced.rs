//! Replies to W as a desk gives them that tells wrong places (E7).

use library::packed;
use reference::Word;

use crate::values::Desk;

/// What is wrong with the places.
#[derive(Clone, Copy, Debug, PartialEq, Eq)]
pub enum Placing {
    /// They are counted from 0.
    FromZero,
    /// They are all 1.
    AlwaysFirst,
    /// They are those of the to-words in their order.
    ByToWords,
    /// The last is one more.
    LastOneMore,
    /// The lines of a block are counted from 1.
    BlockFromOne,
    /// The lines of a block have all the place of the first.
    BlockAtFirst,
    /// The last line of a block has none.
    MissingInBlock,
    /// An image has none.
    MissingInImage,
    /// The line that closes a block has one too.
    BehindClosing,
}

pub const PLACINGS: [Placing; 9] = [
    Placing::FromZero,
    Placing::AlwaysFirst,
    Placing::ByToWords,
    Placing::LastOneMore,
    Placing::BlockFromOne,
    Placing::BlockAtFirst,
    Placing::MissingInBlock,
    Placing::MissingInImage,
    Placing::BehindClosing,
];

impl Placing {
    /// The reply in the place of this one to a line, which was sent to this desk.
    pub fn reply(self, desk: &Desk, line: &[u8], reply: &[u8]) -> Vec<u8> {
        if !line.starts_with(b"W\t") || reply.is_empty() {
            return reply.to_vec();
        }
        let slot = usize::from(line[2] - b'A');
        let plan = packed::kept(&desk.value(slot)).expect("it was routed by this plan");
        let goals: Vec<Word> = plan.pairs().values().cloned().collect();
        let text = std::str::from_utf8(reply).expect("a reply is text");
        let (lines, closing) = match text.lines().collect::<Vec<_>>().split_last() {
            Some((closing, lines)) if !lines.is_empty() => (lines.to_vec(), Some(*closing)),
            _ => (vec![text.trim_end()], None),
        };
        let first = place_of(lines[0]);
        let mut wrong = String::new();
        for (number, line) in (1..).zip(&lines) {
            let place = place_of(line);
            let last = number == lines.len();
            let other = self.place(place, [first, number], last, closing.is_some(), &goals);
            let (before, _) = line.rsplit_once('\t').expect("a place");
            wrong += &match other {
                Some(place) => format!("{before}\t{place}\n"),
                None => format!("{before}\n"),
            };
        }
        let behind = match self {
            Placing::BehindClosing => format!("\t{first}"),
            _ => String::new(),
        };
        if let Some(closing) = closing {
            wrong += &format!("{closing}{behind}\n");
        }
        wrong.into_bytes()
    }

    /// What stands in the place of a place, if anything does. Its line is the one with
    /// this number in a reply that begins with the first place.
    fn place(
        self,
        place: usize,
        [first, number]: [usize; 2],
        last: bool,
        block: bool,
        goals: &[Word],
    ) -> Option<usize> {
        match self {
            Placing::FromZero => Some(place - 1),
            Placing::AlwaysFirst => Some(1),
            Placing::ByToWords => {
                let own = &goals[place - 1];
                Some(goals.iter().filter(|goal| *goal <= own).count())
            }
            Placing::LastOneMore if place == goals.len() => Some(place + 1),
            Placing::BlockFromOne if block => Some(number),
            Placing::BlockAtFirst => Some(first),
            Placing::MissingInBlock if block && last => None,
            Placing::MissingInImage if !block => None,
            _ => Some(place),
        }
    }
}

/// The place of a pair in a line, which is its last field.
fn place_of(line: &str) -> usize {
    let field = line.rsplit('\t').next();
    field
        .and_then(|place| place.parse().ok())
        .expect("a place is a number")
}

#[cfg(test)]
mod tests {
    use super::*;
    use crate::random::desks::prepared;

    /// ψ in A sends 111, 112 and 12 to 11, 121 and 122, which are in order; φ in B
    /// has them the other way round.
    #[test]
    fn the_places_alone_are_wrong() {
        let block = b"B\t111\t122\t1\nB\t112\t121\t2\nok\t2\n";
        let wrong = |placing: Placing, line: &[u8], reply: &[u8]| {
            let wrong = placing.reply(&prepared(), line, reply);
            String::from_utf8(wrong).expect("a reply is text")
        };
        let of_block = |placing| wrong(placing, b"W\tB\t11", block);
        assert_eq!(
            of_block(Placing::FromZero),
            "B\t111\t122\t0\nB\t112\t121\t1\nok\t2\n"
        );
        assert_eq!(
            of_block(Placing::ByToWords),
            "B\t111\t122\t3\nB\t112\t121\t2\nok\t2\n"
        );
        assert_eq!(
            of_block(Placing::MissingInBlock),
            "B\t111\t122\t1\nB\t112\t121\nok\t2\n"
        );
        assert_eq!(
            of_block(Placing::BehindClosing),
            "B\t111\t122\t1\nB\t112\t121\t2\nok\t2\t1\n"
        );
        let image = |placing| wrong(placing, b"W\tB\t12", b"ok\t11\t3\n");
        assert_eq!(image(Placing::MissingInImage), "ok\t11\n");
        assert_eq!(image(Placing::LastOneMore), "ok\t11\t4\n");
        assert_eq!(image(Placing::BlockFromOne), "ok\t11\t3\n");
        assert_eq!(wrong(Placing::FromZero, b"T", b"ok\t3\n"), "ok\t3\n");
    }
}
