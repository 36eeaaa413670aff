//! Packed words: digits, alignment, beginnings and tails, and the check of a
//! word against its shape. Aligned words have their first digit in the highest
//! four bits; as numbers they stand in the order of the first digit that
//! differs, a beginning before what it begins.

/// A one in each digit.
const ONES: u64 = 0x1111_1111_1111_1111;

/// n ways at every switch and r belts, both in range.
#[derive(Clone, Copy, PartialEq, Eq)]
pub struct Shape {
    pub arity: u8,
    pub roots: u8,
}

/// The number of digits.
pub fn digits(word: u64) -> u32 {
    16 - word.leading_zeros() / 4
}

/// The word moved up until its first digit is the highest. The mask makes the
/// shift of 0 one by nothing.
pub fn aligned(word: u64) -> u64 {
    word << (word.leading_zeros() & 60)
}

/// The bits below the last digit of an aligned word that isn't 0; no digit is
/// 0, so that the trailing zeros tell.
pub fn bits_below(word: u64) -> u32 {
    word.trailing_zeros() & 60
}

/// Whether the first aligned word begins or equals the second.
pub fn begins(word: u64, other: u64) -> bool {
    (word ^ other) >> bits_below(word) == 0
}

/// What follows in an aligned word behind one that begins it, aligned; 0 where
/// nothing does.
pub fn tail(word: u64, beginning: u64) -> u64 {
    let matched = u64::BITS - bits_below(beginning);
    word.checked_shl(matched).unwrap_or(0)
}

/// The packed word with an aligned tail behind it, if 16 digits are enough.
pub fn append(word: u64, tail: u64) -> Option<u64> {
    if tail == 0 {
        return Some(word);
    }
    let below = bits_below(tail);
    let length = u64::BITS - below;
    // A tail is shorter than the 16 digits of the word that it comes from.
    (word.leading_zeros() >= length).then(|| word << length | tail >> below)
}

/// Whether a packed word is a belt and ways of the shape. The belt is looked at
/// by itself and replaced by a 1; then all digits are compared at once, every
/// second one in a byte of its own so that sums don't run over.
pub fn is_word(shape: Shape, word: u64) -> bool {
    const EVERY_SECOND: u64 = 0x0f0f_0f0f_0f0f_0f0f;
    const EACH_BYTE: u64 = 0x0101_0101_0101_0101;
    let above = word.leading_zeros() & 60;
    let place = 60 - above;
    let belt = word >> place;
    let ways = word & !(15 << place) | 1 << place;
    let places = ONES >> above;
    let none_zero = (ways | ways >> 1 | ways >> 2 | ways >> 3) & places == places;
    let to_top = EACH_BYTE * u64::from(127 - shape.arity);
    let (even, odd) = (ways & EVERY_SECOND, ways >> 4 & EVERY_SECOND);
    let sums = (even + to_top) | (odd + to_top);
    let none_large = sums & (EACH_BYTE << 7) == 0;
    word != 0 && belt <= u64::from(shape.roots) && none_zero && none_large
}

/// Whether these bytes are a code of the shape. All ways are looked at without
/// a way out, so that many are compared at once.
pub fn is_code(shape: Shape, code: &[u8]) -> bool {
    let Some((belt, ways)) = code.split_first() else {
        return false;
    };
    let wrong = |byte: u8, most: u8| byte.wrapping_sub(b'1') >= most;
    let wrong_ways = ways
        .iter()
        .fold(false, |any, way| any | wrong(*way, shape.arity));
    code.len() <= 1024 && !wrong(*belt, shape.roots) && !wrong_ways
}

/// The first 16 digits of a code as an aligned word.
pub fn beginning(code: &[u8]) -> u64 {
    let first = &code[..code.len().min(16)];
    let packed = first
        .iter()
        .fold(0, |packed, byte| packed << 4 | u64::from(byte - b'0'));
    aligned(packed)
}

/// Writes the digits of a word at the start of the buffer; says how many.
pub fn write(word: u64, out: &mut [u8]) -> usize {
    let length = digits(word) as usize;
    let mut rest = aligned(word);
    for byte in &mut out[..length] {
        *byte = b'0' + (rest >> 60) as u8;
        rest <<= 4;
    }
    length
}

/// The most bytes of a row.
pub const ROW_BYTES: usize = 36;

/// Writes a letter and a pair of words, parted by tabs, and byte 10; says how
/// many bytes they are.
pub fn write_row(letter: u8, from: u64, to: u64, out: &mut [u8]) -> usize {
    out[..2].copy_from_slice(&[letter, b'\t']);
    let mut at = 2 + write(from, &mut out[2..]);
    out[at] = b'\t';
    at += 1;
    at += write(to, &mut out[at..]);
    out[at] = b'\n';
    at + 1
}

#[cfg(test)]
mod tests {
    use super::*;

    const SHAPE: Shape = Shape { arity: 3, roots: 5 };

    #[test]
    fn words_of_the_shape_are_told_from_others() {
        for word in [
            0x1,
            0x5,
            0x5123,
            0x1111_1111_1111_1111,
            0x5333_3333_3333_3333,
        ] {
            assert!(is_word(SHAPE, word), "{word:x}");
        }
        for word in [
            0,
            0x6,
            0x14,
            0x101,
            0x110,
            0x1a1,
            0x1f,
            0x6111_1111_1111_1111,
        ] {
            assert!(!is_word(SHAPE, word), "{word:x}");
        }
    }

    #[test]
    fn the_longest_row_fits() {
        let mut out = [0; ROW_BYTES];
        assert_eq!(write_row(b'B', ONES, ONES, &mut out), ROW_BYTES);
        assert_eq!(write_row(b'M', 0x12, 0x1, &mut out), 7);
        assert_eq!(&out[..7], b"M\t12\t1\n");
    }

    #[test]
    fn a_tail_is_put_behind_another_word() {
        let (word, start) = (aligned(0x12312), aligned(0x123));
        assert!(begins(start, word) && !begins(word, start) && begins(word, word));
        assert_eq!(tail(word, start), aligned(0x12));
        assert_eq!(append(0x5, tail(word, start)), Some(0x512));
        assert_eq!(append(0x5, tail(word, word)), Some(0x5));
        assert_eq!(append(0x0111_1111_1111_1111, aligned(0x1)), Some(ONES));
        assert_eq!(append(0x0111_1111_1111_1111, aligned(0x11)), None);
    }
}
