//! Replies to L and S as a desk gives them that lists other pairs than it holds, or
//! takes plans for the same that aren't: there are shorter tables then, or tables
//! that act otherwise.

use library::listed::Listed;
use library::packed::Row;
use reference::tables::split;
use reference::Word;

/// What is wrong with them.
#[derive(Clone, Copy, Debug, PartialEq, Eq)]
pub enum Listing {
    /// The last pair is listed in parts.
    PairInParts,
    /// The last pair isn't listed.
    PairMissing,
    /// The parts of the deepest block are listed as one pair, whatever their images.
    BlockAsOne,
    /// The to-words are listed in their order.
    ToWordsSorted,
    /// All plans are the same.
    AlwaysSame,
}

pub const LISTINGS: [Listing; 5] = [
    Listing::PairInParts,
    Listing::PairMissing,
    Listing::BlockAsOne,
    Listing::ToWordsSorted,
    Listing::AlwaysSame,
];

impl Listing {
    /// The reply in the place of this one to a line.
    pub fn reply(self, line: &[u8], reply: &[u8]) -> Vec<u8> {
        match line {
            [b'L', _, slot] if self != Listing::AlwaysSame => {
                let mut listed = Listed::read(reply);
                self.spoil(&mut listed);
                let plan = listed.rows.iter().map(record).collect::<String>();
                let (slot, shape) = (char::from(*slot), listed.shape);
                let lines = format!("P\t{slot}\t{}\t{}\n{plan}E\n", shape.arity, shape.roots);
                lines.into_bytes()
            }
            [b'S', ..] if self == Listing::AlwaysSame => b"ok\t1\n".to_vec(),
            _ => reply.to_vec(),
        }
    }

    fn spoil(self, listed: &mut Listed) {
        let Listed { shape, rows } = listed;
        let last = rows.len() - 1;
        match self {
            Listing::PairInParts => {
                let parts = split(&rows[last], *shape);
                rows.splice(last.., parts);
            }
            Listing::PairMissing if last > 0 => drop(rows.pop()),
            Listing::BlockAsOne => join_deepest(rows),
            Listing::ToWordsSorted => {
                let mut goals: Vec<Word> = rows.iter().map(|(_, to)| to.clone()).collect();
                goals.sort();
                rows.iter_mut().zip(goals).for_each(|(row, to)| row.1 = to);
            }
            _ => {}
        }
    }
}

/// Puts the deepest block in the place of its parts, which are all listed, with the
/// image of its way 1 cut short; nothing where there are only belts.
fn join_deepest(rows: &mut Vec<Row>) {
    let deepest = rows.iter().map(|(from, _)| from.len()).max();
    let place = rows
        .iter()
        .position(|(from, _)| Some(from.len()) == deepest);
    let (mut block, mut goal) = rows[place.unwrap_or(0)].clone();
    if block.len() > 1 {
        block.pop();
        goal.truncate((goal.len() - 1).max(1));
        rows.retain(|(from, _)| !from.starts_with(&block));
        rows.push((block, goal));
        rows.sort();
    }
}

fn record((from, to): &Row) -> String {
    let [from, to] = [from, to].map(|word| String::from_utf8_lossy(word));
    format!("M\t{from}\t{to}\n")
}
