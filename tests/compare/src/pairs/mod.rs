//! Pairs of sessions that one station can't tell apart (E6): "two sessions from
//! fresh desks that agree on one station's records, and, at each of those records,
//! on its rights and on what the slots readable to it hold, give that station the
//! same replies." What the other stations send differs, and so does what they leave
//! in the slots that this one may not read. `make` writes the pairs, out of the
//! records of `records`, and here the replies of the two sides are compared, those
//! of a desk program in `fault`.

mod fault;
mod make;
mod records;
#[cfg(test)]
mod tests;

pub use fault::fault;
pub use make::pair;

use std::ops::Range;

/// Two sessions and the station that has to get the same replies in both.
pub struct Pair {
    pub station: u8,
    pub sides: [Side; 2],
}

/// A session in whole turns, and where the turns of the station stand in its bytes:
/// from behind the Z that names it up to and with its last record, the Z that names
/// the next.
#[derive(Clone, Debug, Default)]
pub struct Side {
    pub input: Vec<u8>,
    pub turns: Vec<Range<usize>>,
}

/// A turn of the station with other replies on the two sides.
#[derive(Debug, PartialEq, Eq)]
pub struct Leak {
    pub turn: usize,
    pub records: Vec<u8>,
    pub replies: [Vec<u8>; 2],
}

impl Side {
    /// The replies to a turn: what the output of the session has more behind it than
    /// before it. So no reply has to be told from the next, and none from that to a
    /// record of another station.
    fn replies<E>(
        &self,
        turn: usize,
        desk: &mut impl FnMut(&[u8]) -> Result<Vec<u8>, E>,
    ) -> Result<Vec<u8>, E> {
        let Range { start, end } = self.turns[turn].clone();
        let before = desk(&self.input[..start])?;
        let behind = desk(&self.input[..end])?;
        match behind.strip_prefix(before.as_slice()) {
            Some(replies) => Ok(replies.to_vec()),
            None => Ok(behind),
        }
    }
}

/// The first turn whose replies differ, by a desk that gives the output of an input.
pub fn leak<E>(
    pair: &Pair,
    mut desk: impl FnMut(&[u8]) -> Result<Vec<u8>, E>,
) -> Result<Option<Leak>, E> {
    let [one, other] = &pair.sides;
    for turn in 0..one.turns.len() {
        let replies = [
            one.replies(turn, &mut desk)?,
            other.replies(turn, &mut desk)?,
        ];
        if replies[0] != replies[1] {
            let records = one.input[one.turns[turn].clone()].to_vec();
            return Ok(Some(Leak {
                turn,
                records,
                replies,
            }));
        }
    }
    Ok(None)
}
