//! Words, pairs and shapes as the records of a session carry them, with the
//! limits of a plan. Both columns of every plan are made of these words.

use crate::rng::Rng;

/// Words are kept as the digits that a record carries.
pub type Word = Vec<u8>;
/// One pair of a plan, from and to.
pub type Row = (Word, Word);

/// The most pairs a plan holds.
pub const MOST_PAIRS: usize = 128;
/// The most splits that X has two digits for.
pub const MOST_EXERCISED: usize = 99;
/// The most digits a word of a plan has.
pub const MOST_DIGITS: usize = 16;

/// How many ways at each switch, and how many belts.
#[derive(Clone, Copy, PartialEq, Eq, Debug)]
pub struct Shape {
    pub n: usize,
    pub r: usize,
}

impl Shape {
    /// The splits after which another one would pass the limit of pairs.
    pub fn most_splits(self) -> usize {
        (MOST_PAIRS - self.r) / (self.n - 1)
    }

    pub fn belts(self) -> Vec<Word> {
        (1..=self.r).map(|belt| vec![digit(belt)]).collect()
    }
}

/// Any of the shapes.
pub fn any_shape(rng: &mut Rng) -> Shape {
    Shape {
        n: rng.between(2, 9),
        r: rng.between(1, 9),
    }
}

/// The byte of a digit from 0 to 9.
pub fn digit(value: usize) -> u8 {
    b'0' + value as u8
}

pub fn extended(word: &[u8], way: usize) -> Word {
    let mut longer = word.to_vec();
    longer.push(digit(way));
    longer
}

/// The n parts of a word, in order.
pub fn parts(word: &[u8], n: usize) -> Vec<Word> {
    (1..=n).map(|way| extended(word, way)).collect()
}

/// A byte that no code of the shape has at this place.
pub fn wrong_digit(rng: &mut Rng, shape: Shape, place: usize) -> u8 {
    match rng.below(4) {
        0 => b'0',
        1 if place == 0 => digit(shape.r) + 1,
        1 => digit(shape.n) + 1,
        2 => b'x',
        _ => b'\r',
    }
}

/// A code of `length` digits that obeys the shape.
pub fn random_code(rng: &mut Rng, shape: Shape, length: usize) -> Word {
    let mut code = vec![digit(rng.between(1, shape.r))];
    while code.len() < length {
        code.push(digit(rng.between(1, shape.n)));
    }
    code
}
