//! Each of the 256 bytes at every place of a code. Within the from-word the image
//! and the pair's place show the value that it was given; behind it, where digits are copied, only
//! whether it was taken for a digit. The answers are held to the table of ISO 646
//! (E4), and so is the second implementation.

use reference::{Image, Shape, CODE_DIGITS, PAIRS, WORD_DIGITS};

use super::tally::Tally;
use crate::calls::Calls;
use crate::packed::plan_value;
use crate::random::bases::every_shape;
use crate::random::{plans, Rng};
use crate::second;
use crate::split_path::{digits_in_turn, SplitPath};
use crate::table;
use crate::values::{Matched, Plan, Routed};

/// The digits of a code in which each place is tried: all that the longest
/// from-words have, and a tail long enough to be read sixteen bytes at a time.
const PLACES: usize = 40;

/// Digits behind the end of a code, for a call that would read on.
const BEHIND: usize = 40;

/// The bytes of a room before and behind the buffer that is lent.
const GUARD: usize = 16;

/// Each byte at every place: with a whole code around it and, where the match may
/// end, as the last one.
pub fn at_every_place(calls: &dyn Calls) {
    let mut tally = Tally::default();
    for shape in most_digits_first() {
        // one number of belts is enough for the deepest words, which take longest
        let most = if shape.roots == 8 { PAIRS } else { 40 };
        let asked = Asked::new(calls, SplitPath::within(shape, most));
        let whole = (0..PLACES).map(|place| (place, PLACES));
        let last = (0..=WORD_DIGITS).map(|place| (place, place + 1));
        for (place, length) in whole.chain(last) {
            asked.compare_all(place, length, &mut tally);
        }
    }
    demand(&tally, &["belt", "from-word", "tail"]);
}

/// Each byte at some places of longer codes, those beside the ends of stretches
/// of 8 to 512 bytes among them.
pub fn in_long_codes(calls: &dyn Calls) {
    let mut tally = Tally::default();
    for n in (2..=9).rev() {
        let shape = Shape {
            arity: n,
            roots: 11 - n,
        };
        let asked = Asked::new(calls, SplitPath::along(shape, &digits_in_turn(shape, 3)));
        for length in [17, 33, 64, 100, 1023, CODE_DIGITS] {
            for place in some_places(length) {
                asked.compare_all(place, length, &mut tally);
            }
        }
    }
    demand(&tally, &["belt", "from-word", "tail"]);
}

/// The first and the last places, one in the middle, and the ends of stretches.
fn some_places(length: usize) -> Vec<usize> {
    let stretches = [8, 16, 32, 64, 128, 256, 512].into_iter();
    let ends = stretches.flat_map(|stretch| [stretch - 1, stretch]);
    let mut places: Vec<usize> = ends.filter(|place| *place < length).collect();
    places.extend([0, 1, 2, 3, length / 2, length - 2, length - 1]);
    places.sort_unstable();
    places.dedup();
    places
}

/// Each byte twice, each beside another one, and codes of one byte repeated: what
/// is wrong at one place isn't mended at the next.
pub fn several_at_once(calls: &dyn Calls) {
    let mut rng = Rng::new(405);
    let mut tally = Tally::default();
    for shape in most_digits_first() {
        let asked = Asked::new(calls, SplitPath::within(shape, 40));
        let code = asked.code(PLACES);
        for byte in 0..=255 {
            for other in [byte, byte, rng.number() as u8, *rng.pick(b"0123456789:")] {
                let mut code = code.clone();
                let (place, length) = (rng.below(PLACES - 1), rng.between(2, PLACES));
                code[place] = byte;
                code[rng.between(place + 1, PLACES - 1)] = other;
                // cut short, so that one or both are left out of some
                asked.compare(&code[..length]);
                let number = asked.compare(&code[..PLACES]);
                let wrong = |byte| table::value(byte).is_none();
                tally.count_if(wrong(byte) && wrong(other), "two wrong bytes");
                tally.count_if(number == 0, "two right bytes");
            }
            for length in [1, 2, 7, 16, 17, 33] {
                let number = asked.compare(&vec![byte; length]);
                asked.count(0, byte, number, &mut tally);
            }
        }
    }
    tally.demand(1000, &["two wrong bytes", "two right bytes"]);
    demand(&tally, &["belt"]);
}

/// Every shape, those that show the most values before the others.
fn most_digits_first() -> impl Iterator<Item = Shape> {
    every_shape().into_iter().rev()
}

/// Each value must have been read in these parts of a code, and other bytes
/// refused.
fn demand(tally: &Tally, parts: &[&str]) {
    for part in parts {
        let values = (1..=9).map(|value| format!("{part} {value}"));
        tally.demand(6, &values.collect::<Vec<_>>());
        tally.demand(1000, &[format!("{part} refused")]);
    }
}

/// A split path, and who is asked to route codes by it.
struct Asked<'a> {
    calls: &'a dyn Calls,
    split: SplitPath,
    value: Plan,
    plan: reference::Plan,
}

/// The match, and the image with its place or the number of the refusal.
type Answer = (Matched, Result<Image, u8>);

impl Asked<'_> {
    fn new(calls: &dyn Calls, split: SplitPath) -> Asked<'_> {
        let (value, plan) = (split.value(), plans::kept(split.shape, &split.typed()));
        assert_eq!(plan_value(&plan), value, "it is kept as it stands");
        Asked {
            calls,
            split,
            value,
            plan,
        }
    }

    /// A code along the path and on, with digits behind its end.
    fn code(&self, length: usize) -> Vec<u8> {
        table::written(&digits_in_turn(self.split.shape, length + BEHIND))
    }

    /// What the table says of a code.
    fn expected(&self, code: &[u8]) -> Answer {
        let read = table::read(self.split.shape, code);
        let Some(digits) = read.filter(|digits| digits.len() <= CODE_DIGITS) else {
            return (Matched::nothing(code.len()), Err(4));
        };
        match self.split.pair_beginning(&digits) {
            None => (Matched::nothing(code.len()), Err(13)),
            Some((place, (from, to))) => {
                let tail = &digits[from.len()..];
                let image = Image {
                    digits: table::written(&[to, tail].concat()),
                    place,
                };
                let tail = tail.len();
                (Matched { tail, place }, Ok(image))
            }
        }
    }

    /// Asks of codes of this length with each byte at this place.
    fn compare_all(&self, place: usize, length: usize, tally: &mut Tally) {
        let mut code = self.code(length);
        for byte in 0..=255 {
            code[place] = byte;
            let number = self.compare(&code[..length]);
            self.count(place, byte, number, tally);
        }
    }

    /// Holds the second implementation and the calls to the table; says the number
    /// of the answer.
    fn compare(&self, code: &[u8]) -> u8 {
        let expected = self.expected(code);
        let image = self.plan.route(code).map_err(|refusal| refusal.number());
        let second = (second::matched(&self.plan, code), image);
        assert_eq!(second, expected, "second to {}", self.case(code));
        let (matched, image) = expected;
        let unmatched = self.calls.unmatched(&self.value, code);
        assert_eq!(unmatched, matched, "unmatched of {}", self.case(code));

        // just enough for an image; more than enough for one that should be none
        let (routed, digits, room) = match image {
            Ok(Image { digits, place }) => {
                let length = digits.len();
                (Routed::image(length, place), digits, length)
            }
            Err(number) => {
                let room = code.len() + WORD_DIGITS;
                (Routed::refused(number), Vec::new(), room)
            }
        };
        let mut lent = vec![b'.'; GUARD + room + GUARD];
        let mut expected = lent.clone();
        expected[GUARD..GUARD + digits.len()].copy_from_slice(&digits);
        let out = &mut lent[GUARD..GUARD + room];
        let answer = self.calls.route(&self.value, code, out);
        assert_eq!(answer, routed, "route of {}", self.case(code));
        assert!(lent == expected, "image of {}", self.case(code));
        answer.number
    }

    fn case(&self, code: &[u8]) -> String {
        let (shape, path) = (self.split.shape, &self.split.path);
        format!("{} by {shape:?} along {path:?}", code.escape_ascii())
    }

    /// Counts what a byte at a place came to.
    fn count(&self, place: usize, byte: u8, number: u8, tally: &mut Tally) {
        let part = match place {
            0 => "belt",
            _ if place < self.split.path.len() => "from-word",
            _ => "tail",
        };
        match table::value(byte) {
            Some(value) if number != 4 => tally.count(format!("{part} {value}")),
            _ => tally.count(format!("{part} refused")),
        }
    }
}
