//! Tables of pairs without any limit (E10): what may stand beside a listing. Their
//! rows come in any order, their words have any number of digits, and their
//! to-words needn't be a basis. Whether two act alike is decided by going down
//! from the belts, and what a from-word may be paired with by cutting tails off;
//! nothing here joins pairs.

use crate::words::{Shape, Word};

/// A pair (from, to).
pub type Row = (Word, Word);

/// "A code that begins with a from-word goes to the paired to-word followed by
/// the tail." Nothing if no from-word begins the code; no two may.
pub fn image(rows: &[Row], code: &[u8]) -> Option<Word> {
    let mut rows = rows.iter();
    rows.find_map(|row| image_by(row, code))
}

fn image_by((from, to): &Row, code: &[u8]) -> Option<Word> {
    let tail = code.strip_prefix(from.as_slice())?;
    Some([to, tail].concat())
}

/// Whether the from-words are a basis of any size, in which words of 16 digits
/// have parts like all others.
pub fn from_is_basis(shape: Shape, rows: &[Row]) -> bool {
    let column: Vec<&Word> = rows.iter().map(|(from, _)| from).collect();
    let are_codes = column.iter().all(|word| shape.is_code(word));
    are_codes && exactly_covered(shape, &shape.belts(), &column)
}

/// Whether each of the blocks is listed once and none of its extensions is, or
/// its parts are all exactly covered. The words are codes of the shape.
fn exactly_covered(shape: Shape, blocks: &[Word], column: &[&Word]) -> bool {
    blocks.iter().all(|block| {
        let within = column.iter().filter(|word| word.starts_with(block));
        let within: Vec<&Word> = within.copied().collect();
        match within.as_slice() {
            [] => false,
            [only] if *only == block => true,
            several if several.contains(&block) => false,
            several => exactly_covered(shape, &shape.parts(block), several),
        }
    })
}

/// The rows of the parts of a pair: (w, v) split into (w1, v1), .., (wn, vn).
pub fn split((from, to): &Row, shape: Shape) -> Vec<Row> {
    let images = shape.parts(to);
    shape.parts(from).into_iter().zip(images).collect()
}

/// The first code in order that is long enough for both tables, no longer than
/// that, and sent to two places; none if the tables act alike. In each of them no
/// from-word begins another.
pub fn telling_code(shape: Shape, one: &[Row], other: &[Row]) -> Option<Word> {
    let [one, other] = [one, other].map(|rows| rows.iter().collect::<Vec<&Row>>());
    telling_code_within(shape, shape.belts(), &one, &other)
}

/// The same for the codes that begin with one of these blocks. Where both tables
/// have an image of the block itself, the images of all longer codes have the same
/// tail behind it.
fn telling_code_within(
    shape: Shape,
    blocks: Vec<Word>,
    one: &[&Row],
    other: &[&Row],
) -> Option<Word> {
    blocks.into_iter().find_map(|block| {
        let rows = [one, other].map(|rows| meeting(rows, &block));
        let images = rows
            .each_ref()
            .map(|rows| rows.iter().find_map(|row| image_by(row, &block)));
        match (images, rows) {
            ([Some(here), Some(there)], _) => (here != there).then_some(block),
            // no code within the block is long enough for both
            (_, [one, other]) if one.is_empty() || other.is_empty() => None,
            (_, [one, other]) => telling_code_within(shape, shape.parts(&block), &one, &other),
        }
    })
}

/// The rows that route some code which begins with the block.
fn meeting<'a>(rows: &[&'a Row], block: &[u8]) -> Vec<&'a Row> {
    let meets = |from: &Word| from.starts_with(block) || block.starts_with(from);
    let meeting = rows.iter().filter(|(from, _)| meets(from));
    meeting.copied().collect()
}

/// The only to-word with which this from-word acts as the table does, or none.
/// Where from-words w t with to-words v' extend it, v t must be v' for each. It may
/// be the empty word. The from-words are a basis.
pub fn only_to_word(rows: &[Row], word: &[u8]) -> Option<Word> {
    if let Some(image) = image(rows, word) {
        return Some(image);
    }
    let mut goals = rows.iter().filter_map(|(from, to)| {
        let tail = from.strip_prefix(word)?;
        Some(to.strip_suffix(tail))
    });
    let first = goals.next().flatten()?;
    goals
        .all(|goal| goal == Some(first))
        .then(|| first.to_vec())
}

/// The only table with this from column that acts as the table does and whose
/// to-words have at least so many digits, or none: 1 is "at least a belt", and with
/// 0 they may be empty.
pub fn on_column(rows: &[Row], column: &[Word], least: usize) -> Option<Vec<Row>> {
    let paired = column.iter().map(|word| {
        let goal = only_to_word(rows, word)?;
        (goal.len() >= least).then_some((word.clone(), goal))
    });
    paired.collect()
}

/// Every basis that so many splits of the belts lead to, each once, its words in
/// order. Every finite basis is one of these (document 004, Corollary 3.18).
pub fn bases(shape: Shape, splits: usize) -> Vec<Vec<Word>> {
    bases_of(shape, &shape.belts(), splits)
}

/// The same for some blocks in the place of the belts.
fn bases_of(shape: Shape, blocks: &[Word], splits: usize) -> Vec<Vec<Word>> {
    let Some((first, others)) = blocks.split_first() else {
        return if splits == 0 { vec![vec![]] } else { vec![] };
    };
    let mut found = Vec::new();
    for here in 0..=splits {
        let within_first = match here {
            0 => vec![vec![first.clone()]],
            _ => bases_of(shape, &shape.parts(first), here - 1),
        };
        let within_others = bases_of(shape, others, splits - here);
        for words in &within_first {
            let joined = within_others.iter();
            found.extend(joined.map(|more| [words.as_slice(), more].concat()));
        }
    }
    found
}
