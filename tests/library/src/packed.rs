//! Conversions between the second implementation's words and plans and the
//! packed values of the library: four bits a digit, the last digit lowest and
//! zeros above. They say which values are drafts and which are plans.

use reference::{Shape, Word};

use crate::values::{Plan, PLACES};

/// A pair (from, to) of words.
pub type Row = (Word, Word);

/// The packed form of a word of at most 16 digits.
pub fn pack(word: &[u8]) -> u64 {
    assert!(word.len() <= reference::WORD_DIGITS, "a packed word");
    word.iter()
        .fold(0, |packed, byte| packed << 4 | u64::from(byte - b'0'))
}

/// The digits of a packed number as bytes. Those above 9 come out as bytes
/// above `9`, and a 0 as `0`, so that no shape takes them for digits.
pub fn unpack(packed: u64) -> Word {
    let digits = (u64::BITS - packed.leading_zeros()).div_ceil(4);
    let nibbles = (0..digits).rev().map(|place| packed >> (4 * place) & 15);
    nibbles.map(|nibble| b'0' + nibble as u8).collect()
}

/// The value of a shape and rows, which needn't be a plan.
pub fn value(shape: Shape, rows: &[Row]) -> Plan {
    let mut value = Plan {
        arity: shape.arity,
        roots: shape.roots,
        pairs: rows.len(),
        ..Plan::ZERO
    };
    for (place, (from, to)) in rows.iter().enumerate() {
        value.from[place] = pack(from);
        value.to[place] = pack(to);
    }
    value
}

/// The value of a kept plan.
pub fn plan_value(plan: &reference::Plan) -> Plan {
    value(plan.shape(), &plan.pair_list())
}

/// The shape and the rows of a value that is a draft: shape and count in range,
/// words of the shape at the places counted, zeros behind.
pub fn draft(value: &Plan) -> Option<(Shape, Vec<Row>)> {
    let shape = Shape {
        arity: value.arity,
        roots: value.roots,
    };
    if !shape.in_range() || value.pairs > PLACES {
        return None;
    }
    let (from, from_behind) = value.from.split_at(value.pairs);
    let (to, to_behind) = value.to.split_at(value.pairs);
    let zeros_behind = from_behind.iter().chain(to_behind).all(|word| *word == 0);
    let rows: Vec<Row> = from
        .iter()
        .zip(to)
        .map(|(from, to)| (unpack(*from), unpack(*to)))
        .collect();
    let words = rows
        .iter()
        .all(|(from, to)| shape.is_plan_word(from) && shape.is_plan_word(to));
    (zeros_behind && words).then_some((shape, rows))
}

/// The plan that a value is, if it is one.
pub fn kept(value: &Plan) -> Option<reference::Plan> {
    let (shape, rows) = draft(value)?;
    reference::Plan::recognise(shape, &rows)
}

#[cfg(test)]
mod tests {
    use super::*;

    #[test]
    fn words_come_back_from_their_packed_form() {
        for word in [&b"1"[..], b"1122", b"987654321", b"9111111111111111"] {
            assert_eq!(unpack(pack(word)), word);
        }
        assert_eq!(pack(b"1122"), 0x1122);
        assert_eq!(unpack(0), b"");
        assert_eq!(unpack(0x1a0), b"1:0");
    }

    #[test]
    fn a_plan_comes_back_and_a_spoiled_one_does_not() {
        let shape = Shape { arity: 2, roots: 1 };
        let rows = [
            (b"11".to_vec(), b"12".to_vec()),
            (b"12".to_vec(), b"11".to_vec()),
        ];
        let good = value(shape, &rows);
        assert_eq!(plan_value(&kept(&good).expect("a plan")), good);
        let mut behind = good;
        behind.to[127] = 0x11;
        let mut counted = good;
        counted.pairs = usize::MAX;
        assert!(draft(&behind).is_none() && draft(&counted).is_none());
        let mut turned = good;
        turned.from.swap(0, 1);
        assert!(draft(&turned).is_some() && kept(&turned).is_none());
    }
}
