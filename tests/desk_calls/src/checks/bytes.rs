//! Each of the 256 bytes in the words of M and in the code of W. What a byte was
//! read as shows in the packed words of a plan, in listings and in images. All of
//! this is compared with the second implementation, and then held to the table of
//! ISO 646 (E4), so that both aren't wrong alike.

use library::split_path::{digits_in_turn, SplitPath};
use library::table;
use reference::{Shape, CODE_DIGITS, PAIRS, WORD_DIGITS};

use super::side_by_side::SideBySide;
use crate::calls::Calls;
use crate::values::{Desk, Written, OPEN};

/// The digits of a code in which each place is tried.
const PLACES: usize = 40;

/// Each n and each r, those that show the most values first.
fn shapes() -> impl Iterator<Item = Shape> {
    let sums = (2..=9).rev().map(|arity| (arity, 11 - arity));
    let shapes = sums.chain([(9, 1)]);
    shapes.map(|(arity, roots)| Shape { arity, roots })
}

/// Each byte at every place of a from-word, of a to-word and of both: in a word of
/// 16 digits, and as the last digit.
pub fn in_words(calls: &dyn Calls) {
    let mut both = SideBySide::new(calls, &Desk::FRESH);
    for shape in shapes() {
        let digits = table::written(&digits_in_turn(shape, WORD_DIGITS));
        for place in 0..WORD_DIGITS {
            for byte in 0..=255 {
                let mut word = digits.clone();
                word[place] = byte;
                for word in [&word[..], &word[..=place]] {
                    add_pair(&mut both, shape, word, &digits[..1]);
                    count(&mut both, shape, "from-word", word, byte);
                    add_pair(&mut both, shape, &digits[..1], word);
                    count(&mut both, shape, "to-word", word, byte);
                    add_pair(&mut both, shape, word, word);
                }
            }
        }
    }
    demand(&both, &["from-word", "to-word"]);
}

/// M of these words, the first ones of an open plan. They stand there packed, or
/// the plan is dropped.
fn add_pair(both: &mut SideBySide, shape: Shape, from: &[u8], to: &[u8]) {
    let mut desk = Desk::FRESH;
    desk.opened = b'C';
    desk.blocks[OPEN].arity = shape.arity;
    desk.blocks[OPEN].roots = shape.roots;
    both.start(&desk);
    let line = [b"M\t", from, b"\t", to].concat();
    let answer = both.line_into(&line, 8);
    let words = table::read(shape, from).zip(table::read(shape, to));
    let expected = match words {
        None => {
            desk = Desk::FRESH;
            Written::refused(wrong_byte(&[from, to].concat()), 0)
        }
        Some((from, to)) => {
            let mut open = desk.value(OPEN);
            open.pairs = 1;
            open.from[0] = table::packed(&from);
            open.to[0] = table::packed(&to);
            desk.put(OPEN, &open);
            Written::bytes(0)
        }
    };
    let asked = || format!("by the table after {} of {shape:?}", line.escape_ascii());
    assert_eq!(answer, expected, "{}", asked());
    assert_eq!(*both.desk(), desk, "{}", asked());
}

/// The refusal of a text with a wrong byte: 4, but a tab makes it two fields.
fn wrong_byte(text: &[u8]) -> u8 {
    if text.contains(&b'\t') {
        1
    } else {
        4
    }
}

/// Plans along each of the digits, typed, kept and listed, and then each of their
/// from-words routed: where a digit is taken for another, no plan is left, another
/// one is listed, or the image is another.
pub fn digits_in_plans(calls: &dyn Calls) {
    let mut both = SideBySide::new(calls, &Desk::FRESH);
    for shape in shapes() {
        let deepest = SplitPath::within(shape, PAIRS).path.len();
        for digit in 1..=shape.arity.max(shape.roots) {
            let mut path = vec![digit.min(shape.arity); deepest];
            path[0] = digit.min(shape.roots);
            keep_and_list(&mut both, &SplitPath::along(shape, &path));
        }
    }
}

fn keep_and_list(both: &mut SideBySide, split: &SplitPath) {
    let Shape { arity, roots } = split.shape;
    let [arity, roots] = [arity, roots].map(|number| char::from(table::byte(number)));
    let opening = format!("P\tC\t{arity}\t{roots}");
    let typed = split.typed();
    let pairs = typed
        .iter()
        .map(|(from, to)| [b"M\t", &from[..], b"\t", to].concat());
    both.start(&Desk::FRESH);
    let mut listing = Vec::new();
    for line in [opening.into_bytes()].into_iter().chain(pairs) {
        reply(both, &line, b"");
        listing.extend([&line[..], b"\n"].concat());
    }
    reply(both, b"E", format!("ok\t{}\n", typed.len()).as_bytes());
    assert_eq!(both.desk().value(2), split.value(), "by the table after E");
    listing.extend(b"E\n");
    reply(both, b"L\tC", &listing);
    for (place, (from, to)) in (1..).zip(&typed) {
        let place: usize = place;
        let image = line(&[b"ok", to, place.to_string().as_bytes()]);
        reply(both, &[b"W\tC\t", &from[..]].concat(), &image);
    }
}

/// Asserts the reply to a line that is done.
fn reply(both: &mut SideBySide, line: &[u8], reply: &[u8]) {
    let answer = both.line(line);
    let asked = || format!("by the table to {}", line.escape_ascii());
    assert_eq!(answer, Written::bytes(reply.len()), "{}", asked());
    assert!(both.reply() == reply, "{}", asked());
}

/// Each byte at every place of a code: with a whole code around it; where the
/// match may end, as the last one, which may leave a front with a block; and at
/// some places of a long code.
pub fn in_codes(calls: &dyn Calls) {
    let mut both = SideBySide::new(calls, &Desk::FRESH);
    for shape in shapes() {
        // one shape is enough for the deepest words, which take longest
        let most = if shape.roots == 1 { PAIRS } else { 40 };
        let split = SplitPath::within(shape, most);
        let mut desk = Desk::FRESH;
        desk.hold(0, &split.value());
        both.start(&desk);
        let digits = table::written(&digits_in_turn(shape, CODE_DIGITS));
        let whole = (0..PLACES).map(|place| (place, PLACES));
        let last = (0..=WORD_DIGITS).map(|place| (place, place + 1));
        let long = [0, 15, 16, 63, 64, 511, 1022, 1023].map(|place| (place, CODE_DIGITS));
        for (place, length) in whole.chain(last).chain(long) {
            for byte in 0..=255 {
                let mut code = digits[..length].to_vec();
                code[place] = byte;
                route(&mut both, &split, &code);
                count(&mut both, shape, "code", &code, byte);
            }
        }
    }
    both.tally.demand(50, &["a block"]);
    demand(&both, &["code"]);
}

/// W of a code by the plan along a split path, in slot A.
fn route(both: &mut SideBySide, split: &SplitPath, code: &[u8]) {
    let (expected, reply) = match table::read(split.shape, code) {
        None => (Written::refused(wrong_byte(code), 0), Vec::new()),
        Some(digits) => {
            let reply = routed(split, &digits);
            (Written::bytes(reply.len()), reply)
        }
    };
    // room for an image that should be none, and for a longer one
    let room = reply.len().max(code.len()) + 32;
    let answer = both.line_into(&[b"W\tA\t", code].concat(), room);
    let asked = || format!("by the table to W of {}", code.escape_ascii());
    assert_eq!(answer, expected, "{}", asked());
    assert!(both.reply() == reply, "{}", asked());
}

/// The image of these digits, or the block of the pairs that extend them, with the
/// places of the pairs.
fn routed(split: &SplitPath, digits: &[u8]) -> Vec<u8> {
    if let Some((place, (from, to))) = split.pair_beginning(digits) {
        let image = table::written(&[to, &digits[from.len()..]].concat());
        return line(&[b"ok", &image, place.to_string().as_bytes()]);
    }
    let placed = (1..).zip(&split.pairs);
    let extend = placed.filter(|(_, (from, _))| from.starts_with(digits));
    let lines = extend.map(|(place, (from, to))| {
        let [from, to] = [from, to].map(|word| table::written(word));
        line(&[b"B", &from, &to, place.to_string().as_bytes()])
    });
    let mut lines: Vec<Vec<u8>> = lines.collect();
    lines.push(format!("ok\t{}\n", lines.len()).into_bytes());
    lines.concat()
}

/// A line of a reply, from its fields.
fn line(fields: &[&[u8]]) -> Vec<u8> {
    [fields.join(&b'\t'), b"\n".to_vec()].concat()
}

/// Counts what a byte in a word or a code came to.
fn count(both: &mut SideBySide, shape: Shape, text: &str, word: &[u8], byte: u8) {
    let right = table::read(shape, word).is_some();
    let came_to = match table::value(byte).filter(|_| right) {
        Some(value) => value.to_string(),
        None => "refused".into(),
    };
    both.tally.count(format!("{text} {came_to}"));
}

/// Each value must have been read in each of these texts, and other bytes refused.
fn demand(both: &SideBySide, texts: &[&str]) {
    for text in texts {
        let values = (1..=9).map(|value| format!("{text} {value}"));
        both.tally.demand(10, &values.collect::<Vec<_>>());
        both.tally.demand(1000, &[format!("{text} refused")]);
    }
    both.tally.demand(100, &["0", "1", "4"]);
}
