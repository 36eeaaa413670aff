//! The digits of a code as the table of ISO 646 has them (E4): nine rows, and
//! every other of the 256 bytes is no digit. What is expected by this table owes
//! nothing to the second implementation, which compares the bytes of codes and
//! never asks for a value.

use reference::Shape;

/// A word or a code by the values of its digits.
pub type Values = Vec<u8>;

/// The rows of the digits: the byte, whose halves are the column and the row of
/// the table, and the value.
pub const DIGITS: [(u8, u8); 9] = [
    (0x31, 1), // 3/1
    (0x32, 2), // 3/2
    (0x33, 3), // 3/3
    (0x34, 4), // 3/4
    (0x35, 5), // 3/5
    (0x36, 6), // 3/6
    (0x37, 7), // 3/7
    (0x38, 8), // 3/8
    (0x39, 9), // 3/9
];

/// The value of a byte; none if it is no digit.
pub fn value(byte: u8) -> Option<u8> {
    let row = DIGITS.iter().find(|row| row.0 == byte);
    row.map(|row| row.1)
}

/// The byte of a value from 1 to 9.
pub fn byte(value: u8) -> u8 {
    let row = DIGITS.iter().find(|row| row.1 == value);
    row.expect("a digit has a value from 1 to 9").0
}

/// The bytes of these digits.
pub fn written(values: &[u8]) -> Vec<u8> {
    values.iter().map(|value| byte(*value)).collect()
}

/// The values of the digits of a code: "a belt from 1 to r, then ways from 1 to
/// n". None if it is empty or has a wrong digit, which is refusal 4.
pub fn read(shape: Shape, code: &[u8]) -> Option<Values> {
    let (belt, ways) = code.split_first()?;
    let belts = [belt].into_iter().map(|byte| (byte, shape.roots));
    let digits = belts.chain(ways.iter().map(|byte| (byte, shape.arity)));
    digits
        .map(|(byte, most)| value(*byte).filter(|value| *value <= most))
        .collect()
}

/// "Four bits a digit, its last digit lowest and zeros above."
pub fn packed(values: &[u8]) -> u64 {
    let digits = values.iter();
    digits.fold(0, |packed, value| packed << 4 | u64::from(*value))
}

#[cfg(test)]
mod tests {
    use super::*;

    /// A digit's row in column 3 is its value; the other 247 bytes have none.
    #[test]
    fn nine_rows_and_no_more() {
        let found: Vec<u8> = (0..=255).filter(|byte| value(*byte).is_some()).collect();
        assert_eq!(found, b"123456789");
        for (byte, value) in DIGITS {
            assert_eq!((byte >> 4, byte & 15), (3, value));
        }
    }

    #[test]
    fn codes_within_a_shape_and_beyond() {
        let shape = Shape { arity: 2, roots: 3 };
        assert_eq!(read(shape, b"3121"), Some(vec![3, 1, 2, 1]));
        for wrong in [&b""[..], b"4", b"13", b"0", b"10", b"1 ", b"\x01", b"1\xb1"] {
            assert_eq!(read(shape, wrong), None, "{wrong:?}");
        }
        assert_eq!(written(&[3, 1, 2]), b"312");
        assert_eq!(packed(&[3, 1, 2]), 0x312);
    }
}
