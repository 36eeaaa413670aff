//! Shapes and words. A word is a string of the digit bytes `1` to `9`: a belt
//! (one of the roots x1, .., xr of document 004), then ways (its descending
//! operations α1, .., αn). The limits on words, codes and plans stand here too.

/// A word or a code, one digit byte a place. The order of byte strings is the
/// order "of the first digit that differs".
pub type Word = Vec<u8>;

/// "A word in a plan has at most 16 digits (belt and 15 ways)."
pub const WORD_DIGITS: usize = 16;

/// "A routed code has at most 1,024".
pub const CODE_DIGITS: usize = 1024;

/// "A plan is 1 to 128 pairs".
pub const PAIRS: usize = 128;

/// "A shape has n ways at every switch, 2 to 9, and r belts, 1 to 9."
#[derive(Clone, Copy, Debug, PartialEq, Eq, PartialOrd, Ord)]
pub struct Shape {
    /// n, the number of parts of every block.
    pub arity: u8,
    /// r, the number of belts.
    pub roots: u8,
}

impl Shape {
    /// Whether both numbers are in their ranges.
    pub fn in_range(self) -> bool {
        (2..=9).contains(&self.arity) && (1..=9).contains(&self.roots)
    }

    /// Whether these bytes are a code of this shape, of whatever length: at
    /// least a belt, the belt from 1 to r, every way from 1 to n.
    pub fn is_code(self, bytes: &[u8]) -> bool {
        match bytes.split_first() {
            None => false,
            Some((belt, ways)) => {
                is_digit_up_to(*belt, self.roots)
                    && ways.iter().all(|way| is_digit_up_to(*way, self.arity))
            }
        }
    }

    /// Whether these bytes may stand in a plan of this shape.
    pub fn is_plan_word(self, bytes: &[u8]) -> bool {
        bytes.len() <= WORD_DIGITS && self.is_code(bytes)
    }

    /// The belts as words: the set x of document 004.
    pub fn belts(self) -> Vec<Word> {
        (1..=self.roots).map(|belt| vec![digit(belt)]).collect()
    }

    /// The simple expansion of one word: its n parts in the order of the ways.
    pub fn parts(self, word: &[u8]) -> Vec<Word> {
        (1..=self.arity)
            .map(|way| [word, &[digit(way)]].concat())
            .collect()
    }
}

/// The byte that writes a number from 0 to 9.
pub fn digit(number: u8) -> u8 {
    b'0' + number
}

fn is_digit_up_to(byte: u8, most: u8) -> bool {
    (b'1'..=digit(most)).contains(&byte)
}
