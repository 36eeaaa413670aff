//! Lent buffers. Each call that writes is asked with a part of a larger room,
//! filled with a pattern, and the whole room is compared afterwards: a byte
//! behind the output, outside the buffer, or written in a refusal shows.

use crate::calls::Calls;
use crate::second::Second;
use crate::values::{Routed, Written};

/// The bytes of the room before and behind the buffer.
const GUARD: usize = 64;

/// More than any image or listing needs: 128 lines of 36 bytes and two more.
pub const AMPLE: usize = 5000;

/// The answer of a call that writes into a buffer.
pub trait Answer: PartialEq + std::fmt::Debug {
    /// How many bytes it wrote; 0 in a refusal.
    fn length(&self) -> usize;
}

impl Answer for Written {
    fn length(&self) -> usize {
        self.length
    }
}

impl Answer for Routed {
    fn length(&self) -> usize {
        self.length
    }
}

/// A call that writes into a buffer.
pub type Ask<'a, A> = &'a dyn Fn(&dyn Calls, &mut [u8]) -> A;

/// The lengths of buffer worth trying for an output of this length.
pub fn lengths(output: usize) -> Vec<usize> {
    let shorter = [output.saturating_sub(1), output / 2, 0];
    [vec![output, output + 1, AMPLE], shorter.to_vec()].concat()
}

/// The length of the output, by the second implementation; 0 in a refusal.
pub fn output_length<A: Answer>(ask: Ask<A>) -> usize {
    ask(&Second, &mut [0; AMPLE]).length()
}

/// Asks with a buffer of this length, and the second implementation with one
/// like it; answers and rooms must agree. The salt varies the pattern.
pub fn compare<A: Answer>(calls: &dyn Calls, ask: Ask<A>, length: usize, salt: usize) -> A {
    let (mut room, mut expected_room) = (pattern(length, salt), pattern(length, salt));
    let lent = GUARD..GUARD + length;
    let answer = ask(calls, &mut room[lent.clone()]);
    let expected = ask(&Second, &mut expected_room[lent]);
    assert_eq!(answer, expected, "with a buffer of {length} bytes");
    let different = room.iter().zip(&expected_room).position(|(a, b)| a != b);
    assert_eq!(
        different, None,
        "a byte differs in the room of a buffer of {length} bytes at {GUARD}, answer {answer:?}"
    );
    answer
}

fn pattern(length: usize, salt: usize) -> Vec<u8> {
    let bytes = 0..length + 2 * GUARD;
    bytes.map(|place| (place * 151 + salt * 59) as u8).collect()
}
