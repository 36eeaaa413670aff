//! Codes for a plan: too short, just long enough, long, too long, or with a
//! wrong byte. A code is lent as the beginning of a longer string of digits,
//! so that a call that reads behind its end finds digits that change the answer.

use reference::{Plan, Shape, CODE_DIGITS};

use super::Rng;

/// Bytes beside the digits, and those that become digits by a wrong sum.
const WRONG: [u8; 12] = [0, 1, 9, 10, b' ', b'/', b'0', b':', b'A', 127, 128, 255];

/// The first `length` bytes of `digits`.
#[derive(Clone, Debug)]
pub struct Code {
    digits: Vec<u8>,
    length: usize,
}

impl Code {
    pub fn bytes(&self) -> &[u8] {
        &self.digits[..self.length]
    }
}

/// The kinds of code, so that a check can go through all of them.
#[derive(Clone, Copy, Debug)]
pub enum Kind {
    Empty,
    FromWord,
    Beginning,
    ShortTail,
    LongTail,
    Longest,
    TooLong,
    Random,
    WrongByte,
    WrongBelt,
    WrongWay,
}

pub const KINDS: [Kind; 11] = [
    Kind::Empty,
    Kind::FromWord,
    Kind::Beginning,
    Kind::ShortTail,
    Kind::LongTail,
    Kind::Longest,
    Kind::TooLong,
    Kind::Random,
    Kind::WrongByte,
    Kind::WrongBelt,
    Kind::WrongWay,
];

/// A code of this kind for the plan.
pub fn code(rng: &mut Rng, plan: &Plan, kind: Kind) -> Code {
    let shape = plan.shape();
    let words: Vec<&Vec<u8>> = plan.pairs().keys().collect();
    let word = (*rng.pick(&words)).clone();
    let matched = word.len();
    let digits = with_tail(rng, shape, word);
    let length = match kind {
        Kind::Empty => 0,
        Kind::FromWord => matched,
        Kind::Beginning => rng.between(1, matched.max(2) - 1),
        Kind::ShortTail | Kind::WrongBelt => matched + rng.between(0, 40),
        Kind::WrongByte | Kind::WrongWay => matched + rng.between(1, 1000),
        Kind::LongTail => rng.between(matched, CODE_DIGITS),
        Kind::Longest => CODE_DIGITS,
        Kind::TooLong => CODE_DIGITS + rng.between(1, 20),
        Kind::Random => return random(rng, shape),
    };
    let mut code = Code { digits, length };
    spoil(rng, shape, kind, &mut code);
    code
}

/// Puts a wrong byte in, of the kinds that ask for one.
fn spoil(rng: &mut Rng, shape: Shape, kind: Kind, code: &mut Code) {
    match kind {
        Kind::WrongByte => {
            let place = *rng.pick(&[0, 1, code.length / 2, code.length - 1]);
            code.digits[place] = *rng.pick(&WRONG);
        }
        Kind::WrongBelt => code.digits[0] = b'1' + shape.roots,
        Kind::WrongWay => {
            let place = rng.between(1, code.length - 1);
            code.digits[place] = b'1' + shape.arity;
        }
        _ => {}
    }
}

/// A code of any length, mostly short, that knows nothing of the plan.
fn random(rng: &mut Rng, shape: Shape) -> Code {
    let belt = vec![b'0' + rng.between(1, shape.roots.into()) as u8];
    let most = *rng.pick(&[4, 20, 100, CODE_DIGITS]);
    Code {
        digits: with_tail(rng, shape, belt),
        length: rng.between(1, most),
    }
}

/// The word and ways behind it, more than a code may have.
fn with_tail(rng: &mut Rng, shape: Shape, mut digits: Vec<u8>) -> Vec<u8> {
    while digits.len() < CODE_DIGITS + 40 {
        digits.push(b'0' + rng.between(1, shape.arity.into()) as u8);
    }
    digits
}
