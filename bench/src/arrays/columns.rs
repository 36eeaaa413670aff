//! Columns and drafts: the shape and count of a value, whether its columns are
//! bases, and whether it is a kept plan. A column of aligned words is sorted;
//! then one word begins another only if one begins the next, and it covers the
//! belts exactly if the shares of its words make up the whole.

use library::{Plan, Verdict, PLACES};

use super::table::joins;
use super::words::{aligned, begins, bits_below, is_word, Shape};

/// The powers of each arity: the share of a word, counted in words of 16 digits.
const SHARES: [[u64; 16]; 10] = shares();

/// The flaws of a column have these numbers.
const OVERLAP: u8 = 6;
const GAP: u8 = 7;

const fn shares() -> [[u64; 16]; 10] {
    let mut shares = [[1; 16]; 10];
    let mut arity = 0;
    while arity < 10 {
        let mut way = 1;
        while way < 16 {
            shares[arity][way] = shares[arity][way - 1] * arity as u64;
            way += 1;
        }
        arity += 1;
    }
    shares
}

/// A column of aligned words on the stack.
pub struct Column {
    words: [u64; PLACES],
    length: usize,
}

impl Column {
    /// The first `length` words, aligned.
    pub fn new(words: &[u64; PLACES], length: usize) -> Column {
        let mut column = Column {
            words: [0; PLACES],
            length,
        };
        for (place, word) in column.words.iter_mut().zip(&words[..length]) {
            *place = aligned(*word);
        }
        column
    }

    pub fn words(&self) -> &[u64] {
        &self.words[..self.length]
    }

    fn sorted(mut self) -> Column {
        self.words[..self.length].sort_unstable();
        self
    }

    /// The number of the flaw of a sorted column, or none if it is a basis.
    fn flaw(&self, shape: Shape) -> Option<u8> {
        let words = self.words();
        if words.windows(2).any(|pair| begins(pair[0], pair[1])) {
            return Some(OVERLAP);
        }
        let shares = &SHARES[usize::from(shape.arity)];
        let share = |word: &u64| shares[bits_below(*word) as usize / 4];
        let covered: u64 = words.iter().map(share).sum();
        (covered != u64::from(shape.roots) * shares[15]).then_some(GAP)
    }
}

/// The shape of a value that is a draft.
pub fn draft(value: &Plan) -> Option<Shape> {
    let shape = Shape {
        arity: value.arity,
        roots: value.roots,
    };
    let in_range = (2..=9).contains(&shape.arity) && (1..=9).contains(&shape.roots);
    if !in_range || value.pairs > PLACES {
        return None;
    }
    [&value.from, &value.to]
        .iter()
        .all(|column| {
            let (words, behind) = column.split_at(value.pairs);
            words.iter().all(|word| is_word(shape, *word)) && behind.iter().all(|word| *word == 0)
        })
        .then_some(shape)
}

/// The verdict on the columns of a draft.
pub fn verdict(shape: Shape, value: &Plan) -> Verdict {
    for (column, name) in [(&value.from, b'F'), (&value.to, b'T')] {
        let sorted = Column::new(column, value.pairs).sorted();
        if let Some(number) = sorted.flaw(shape) {
            return Verdict {
                number,
                column: name,
            };
        }
    }
    Verdict {
        number: 0,
        column: 0,
    }
}

/// The shape of a value that is a kept plan. The from-words are in order
/// already, so that only the to-words are sorted.
pub fn plan(value: &Plan) -> Option<Shape> {
    let shape = draft(value)?;
    let from = Column::new(&value.from, value.pairs);
    let ordered = from.words().windows(2).all(|pair| pair[0] < pair[1]);
    if !ordered || from.flaw(shape).is_some() {
        return None;
    }
    let to = Column::new(&value.to, value.pairs).sorted();
    if to.flaw(shape).is_some() {
        return None;
    }
    let (from, to) = (&value.from[..value.pairs], &value.to[..value.pairs]);
    let reduced = (1..=from.len()).all(|end| !joins(shape, &from[..end], &to[..end]));
    reduced.then_some(shape)
}
