//! Lines as a desk reads them whose step from a digit's byte to its value has a
//! wrong case, in one of the texts that it reads digit by digit.

use library::misread::{put_tail, Step};
use library::{packed, second};

use crate::values::Desk;

/// A field that is read digit by digit.
#[derive(Clone, Copy, Debug, PartialEq, Eq)]
pub enum Text {
    /// The from-word of M.
    From,
    /// The to-word of M.
    To,
    /// The code of W.
    Code,
}

pub const TEXTS: [Text; 3] = [Text::From, Text::To, Text::Code];

impl Text {
    /// The letter of the record, and the place of the field behind it.
    fn place(self) -> (&'static [u8], usize) {
        match self {
            Text::From => (b"M", 1),
            Text::To => (b"M", 2),
            Text::Code => (b"W", 2),
        }
    }
}

/// The line with the bytes of this text as the step takes them.
pub fn line(text: Text, step: Step, line: &[u8]) -> Vec<u8> {
    let (letter, place) = text.place();
    let fields = line.split(|byte| *byte == b'\t');
    let mut fields: Vec<Vec<u8>> = fields.map(<[u8]>::to_vec).collect();
    if fields[0] == letter && place < fields.len() {
        let bytes = fields[place].iter_mut();
        bytes.for_each(|byte| *byte = step.read(*byte));
    }
    fields.join(&b'\t')
}

/// The reply to a W as it was read, with the tail of the code as it came: a tail
/// is copied, so that a wrong value doesn't show in it.
pub fn keep_tail(desk: &Desk, came: &[u8], read: &[u8], reply: &mut [u8]) {
    if !read.starts_with(b"W\t") || !reply.starts_with(b"ok\t") {
        return;
    }
    let slot = usize::from(read[2] - b'A');
    let plan = packed::kept(&desk.value(slot)).expect("it was routed by this plan");
    let tail = second::matched(&plan, &read[4..]).tail;
    let end = reply.iter().rposition(|byte| *byte == b'\t');
    let end = end.expect("the place stands behind the image");
    put_tail(&mut reply[3..end], &came[4..], tail);
}

#[cfg(test)]
mod tests {
    use super::*;

    #[test]
    fn one_text_is_misread() {
        let read = |text, typed| line(text, Step::ThreeAndFour, typed);
        assert_eq!(read(Text::From, b"M\t34\t34"), b"M\t43\t34");
        assert_eq!(read(Text::To, b"M\t34\t34"), b"M\t34\t43");
        assert_eq!(read(Text::Code, b"W\t3\t34"), b"W\t3\t43");
        for other in [&b"M\t34\t34"[..], b"P\tA\t3\t4", b"W\t3", b""] {
            assert_eq!(read(Text::Code, other), other);
        }
    }
}
