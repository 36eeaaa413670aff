//! Random tables beside a plan: its pairs split any number of times, far beyond 128
//! pairs and 16 digits too, in any order; and such tables with a change after which
//! they act otherwise, whether or not their to-words are still a basis.

use reference::tables::split as parts_of;
use reference::{Shape, Word};

use super::Rng;
use crate::packed::Row;

/// The rows with some of them split, so many splits in all, in any order. The
/// splits of a deep one follow one row down.
pub fn split(rng: &mut Rng, shape: Shape, rows: &[Row], splits: usize, deep: bool) -> Vec<Row> {
    let mut rows = rows.to_vec();
    let mut index = rng.below(rows.len());
    for _ in 0..splits {
        let row = rows.swap_remove(index);
        rows.extend(parts_of(&row, shape));
        index = match deep {
            true => rows.len() - rng.between(1, shape.arity.into()),
            false => rng.below(rows.len()),
        };
    }
    rng.shuffle(&mut rows);
    rows
}

/// A change of the to-words of a table. The from column stays a basis.
#[derive(Clone, Copy, Debug, PartialEq, Eq)]
pub enum Change {
    /// Two to-words are exchanged.
    Exchanged,
    /// All to-words move on by a row.
    Rotated,
    /// A row is split with two of its images exchanged.
    SplitTwisted,
    /// A to-word is replaced by one of its parts.
    Part,
    /// A to-word is replaced by the word that it is a part of.
    Parent,
    /// Two digits of a to-word are exchanged.
    DigitsExchanged,
    /// A way of a to-word is left out.
    DigitDropped,
    /// A digit of a to-word is another one.
    OtherDigit,
    /// A to-word stands in two rows.
    Repeated,
}

pub const CHANGES: [Change; 9] = [
    Change::Exchanged,
    Change::Rotated,
    Change::SplitTwisted,
    Change::Part,
    Change::Parent,
    Change::DigitsExchanged,
    Change::DigitDropped,
    Change::OtherDigit,
    Change::Repeated,
];

/// The table with this change in some rows; none where it came to nothing.
pub fn changed(rng: &mut Rng, shape: Shape, rows: &[Row], change: Change) -> Option<Vec<Row>> {
    let mut after = rows.to_vec();
    let [here, there] = [(); 2].map(|()| rng.below(after.len()));
    match change {
        Change::Exchanged => {
            let goal = after[here].1.clone();
            after[here].1 = std::mem::replace(&mut after[there].1, goal);
        }
        Change::Rotated => {
            let goals = rows.iter().cycle().skip(1).map(|(_, to)| to.clone());
            after.iter_mut().zip(goals).for_each(|(row, to)| row.1 = to);
        }
        Change::SplitTwisted => {
            let mut parts = parts_of(&after.swap_remove(here), shape);
            let (first, last) = (parts[0].1.clone(), parts.len() - 1);
            parts[0].1 = std::mem::replace(&mut parts[last].1, first);
            after.extend(parts);
        }
        Change::Repeated => after[here].1 = after[there].1.clone(),
        _ => change_word(rng, shape, &mut after[here].1, change),
    }
    (after != rows).then_some(after)
}

/// The changes of one word, which stays a code of the shape.
fn change_word(rng: &mut Rng, shape: Shape, word: &mut Word, change: Change) {
    let ways = word.len() - 1;
    match change {
        Change::Part => word.push(b'0' + rng.between(1, shape.arity.into()) as u8),
        Change::OtherDigit => {
            let place = rng.below(word.len());
            let most = if place == 0 { shape.roots } else { shape.arity };
            word[place] = b'0' + rng.between(1, most.into()) as u8;
        }
        _ if ways == 0 => {}
        Change::Parent => drop(word.pop()),
        Change::DigitsExchanged => word.swap(rng.between(1, ways), rng.between(1, ways)),
        Change::DigitDropped => drop(word.remove(rng.between(1, ways))),
        _ => unreachable!("not a change of one word"),
    }
}
