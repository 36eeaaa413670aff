//! The records of the desk program as lines give them: letter, number of
//! fields and field forms. All that can go wrong here is refusal 1.

use crate::refusal::Refusal;
use crate::rights::Right;

/// A record whose fields have the right forms. Slots may still be any byte,
/// words and codes any bytes.
#[derive(Clone, Copy, Debug, PartialEq, Eq)]
pub enum Record<'a> {
    /// P: opens a plan.
    Open { slot: u8, arity: u8, roots: u8 },
    /// M: adds a pair.
    Pair { from: &'a [u8], to: &'a [u8] },
    /// E: closes, reduces and keeps.
    Close,
    /// F: keeps *first then second*.
    Then { first: u8, second: u8, target: u8 },
    /// I: keeps the inverse.
    Inverse { operand: u8, target: u8 },
    /// K: keeps the power.
    Power { operand: u8, k: i64, target: u8 },
    /// S: whether two plans act alike.
    Same { first: u8, second: u8 },
    /// W: routes a code, or gives the block below it.
    Route { operand: u8, code: &'a [u8] },
    /// L: lists a plan.
    List { operand: u8 },
    /// C: empties a slot.
    Clear { operand: u8 },
    /// X: makes a plan from a seed and keeps it.
    Exercise {
        slot: u8,
        arity: u8,
        roots: u8,
        splits: u8,
        seed: u64,
    },
    /// T: the count of the named station.
    Count,
    /// U: the held slots.
    Held,
    /// H: the pairs in all slots.
    PairsHeld,
    /// Z: names a station.
    Station { station: u8 },
    /// G: gives a station a right on a slot.
    Grant { station: u8, slot: u8, right: Right },
}

impl<'a> Record<'a> {
    /// Reads a line without its byte 10: "one record a line, fields parted by
    /// tabs".
    pub fn read(line: &'a [u8]) -> Result<Record<'a>, Refusal> {
        Record::from_fields(line).ok_or(Refusal::Form)
    }

    fn from_fields(line: &'a [u8]) -> Option<Record<'a>> {
        let fields: Vec<&[u8]> = line.split(|byte| *byte == b'\t').collect();
        Record::changing(&fields).or_else(|| Record::asking(&fields))
    }

    /// The records that open, build, keep or empty a plan.
    fn changing(fields: &[&'a [u8]]) -> Option<Record<'a>> {
        let record = match *fields {
            [b"P", slot, arity, roots] => Record::Open {
                slot: one_byte(slot)?,
                arity: one_digit(arity)?,
                roots: one_digit(roots)?,
            },
            [b"M", from, to] => Record::Pair { from, to },
            [b"E"] => Record::Close,
            [b"F", first, second, target] => Record::Then {
                first: one_byte(first)?,
                second: one_byte(second)?,
                target: one_byte(target)?,
            },
            [b"I", operand, target] => Record::Inverse {
                operand: one_byte(operand)?,
                target: one_byte(target)?,
            },
            [b"K", operand, k, target] => Record::Power {
                operand: one_byte(operand)?,
                k: exponent(k)?,
                target: one_byte(target)?,
            },
            [b"C", operand] => Record::Clear {
                operand: one_byte(operand)?,
            },
            [b"X", slot, arity, roots, splits, seed] => Record::Exercise {
                slot: one_byte(slot)?,
                arity: one_digit(arity)?,
                roots: one_digit(roots)?,
                splits: number(splits, 2)? as u8,
                seed: number(seed, 10)?,
            },
            _ => return None,
        };
        Some(record)
    }

    /// The records that leave the slots as they are.
    fn asking(fields: &[&'a [u8]]) -> Option<Record<'a>> {
        let record = match *fields {
            [b"S", first, second] => Record::Same {
                first: one_byte(first)?,
                second: one_byte(second)?,
            },
            [b"W", operand, code] => Record::Route {
                operand: one_byte(operand)?,
                code,
            },
            [b"L", operand] => Record::List {
                operand: one_byte(operand)?,
            },
            [b"T"] => Record::Count,
            [b"U"] => Record::Held,
            [b"H"] => Record::PairsHeld,
            [b"Z", station] => Record::Station {
                station: one_digit(station)?,
            },
            [b"G", station, slot, right] => Record::Grant {
                station: one_digit(station)?,
                slot: one_byte(slot)?,
                right: one_digit(right).and_then(Right::numbered)?,
            },
            _ => return None,
        };
        Some(record)
    }
}

/// "Slot one byte", of any value.
fn one_byte(field: &[u8]) -> Option<u8> {
    match field {
        [byte] => Some(*byte),
        _ => None,
    }
}

/// "n and r one digit 0 to 9", and the stations of Z and G and the right of G are
/// one digit too.
fn one_digit(field: &[u8]) -> Option<u8> {
    match field {
        [byte] if byte.is_ascii_digit() => Some(byte - b'0'),
        _ => None,
    }
}

/// "k an optional minus and one to four digits, no leading zero and no minus
/// zero". The number 0 itself is written `0`.
fn exponent(field: &[u8]) -> Option<i64> {
    match field {
        [b'-', digits @ ..] => above_zero(digits, 4).map(|size| -(size as i64)),
        digits => number(digits, 4).map(|size| size as i64),
    }
}

/// E3: "s one or two digits and seed one to ten, neither with a leading zero but
/// for 0 itself".
fn number(field: &[u8], most: usize) -> Option<u64> {
    match field {
        b"0" => Some(0),
        digits => above_zero(digits, most),
    }
}

/// One digit up to so many, of which the first is no zero.
fn above_zero(digits: &[u8], most: usize) -> Option<u64> {
    let right_length = (1..=most).contains(&digits.len());
    let all_digits = digits.iter().all(u8::is_ascii_digit);
    if !right_length || !all_digits || digits[0] == b'0' {
        return None;
    }
    let number = digits
        .iter()
        .fold(0, |sum, byte| 10 * sum + u64::from(byte - b'0'));
    Some(number)
}
