//! Copies of the second implementation that join pairs wrongly, too little, too far
//! or not at all, or that compare plans wrongly. The checks of E10 must tell every
//! one of them from a sound one: beside a plan that isn't reduced there is a
//! shorter table.

use reference::maps::{self, Pairs};
use reference::tables::split;
use reference::{Shape, Word, PAIRS, WORD_DIGITS};

use crate::calls::Calls;
use crate::packed::{unpack, value, Row};
use crate::second::{write, Second};
use crate::values::{Compared, Kept, Made, Matched, Plan, Routed, Verdict, Written};

/// What is wrong.
#[derive(Clone, Copy, Debug, PartialEq, Eq)]
pub enum Flaw {
    /// Nothing.
    None,
    /// Pairs are sorted and not joined.
    NothingJoined,
    /// What was joined once isn't joined again.
    OnePass,
    /// One pair is split again.
    OneJoinLeft,
    /// Nothing is joined behind the first belt.
    FirstBeltAlone,
    /// Pairs aren't joined into a pair of two belts.
    BeltsInParts,
    /// Parts whose images stand in another order are joined.
    AnyOrder,
    /// Ways 1 and 2 alone are looked at.
    TwoWays,
    /// Parts that go to the first n belts are joined into a pair with the empty word.
    AcrossBelts,
    /// The last pair isn't kept.
    PairLost,
    /// A pair is kept twice.
    PairTwice,
    /// Plans are the same if their from-words are.
    SameByFromWords,
    /// Plans are the same if they have as many pairs.
    SameByPairs,
    /// Plans are the same if their images have the same first digits.
    SameByFirstDigits,
    /// No plans are the same.
    NeverSame,
}

/// Those of the joins.
pub const OF_JOINS: [Flaw; 10] = [
    Flaw::NothingJoined,
    Flaw::OnePass,
    Flaw::OneJoinLeft,
    Flaw::FirstBeltAlone,
    Flaw::BeltsInParts,
    Flaw::AnyOrder,
    Flaw::TwoWays,
    Flaw::AcrossBelts,
    Flaw::PairLost,
    Flaw::PairTwice,
];

/// Those of the comparison.
pub const OF_SAME: [Flaw; 4] = [
    Flaw::SameByFromWords,
    Flaw::SameByPairs,
    Flaw::SameByFirstDigits,
    Flaw::NeverSame,
];

/// The rows that are kept in the place of a table of two bases; the sound ones where
/// there is no room for them.
fn kept_rows(flaw: Flaw, shape: Shape, table: Pairs) -> Vec<Row> {
    let reduced = maps::reduce(shape, table.clone());
    let sound: Vec<Row> = reduced.clone().into_iter().collect();
    let mut rows: Vec<Row> = match flaw {
        Flaw::NothingJoined => table.into_iter().collect(),
        Flaw::OnePass => {
            let joins = maps::joins(shape, &table);
            joined(shape, table, joins)
        }
        Flaw::OneJoinLeft => with_parts_of_one(shape, &sound),
        Flaw::FirstBeltAlone => {
            let (first, others) = table.into_iter().partition(|(from, _)| from[0] == b'1');
            let joined: Pairs = maps::reduce(shape, first);
            joined.into_iter().chain::<Pairs>(others).collect()
        }
        Flaw::BeltsInParts => sound
            .iter()
            .flat_map(|row| belt_in_parts(shape, row))
            .collect(),
        Flaw::AnyOrder | Flaw::TwoWays | Flaw::AcrossBelts => {
            let joins = too_far(flaw, shape, &reduced);
            joined(shape, reduced, joins)
        }
        _ => sound.clone(),
    };
    match flaw {
        Flaw::PairLost if rows.len() > 1 => drop(rows.pop()),
        Flaw::PairTwice => rows.extend(sound.last().cloned()),
        _ => {}
    }
    if rows.len() > PAIRS {
        sound
    } else {
        rows
    }
}

/// The pairs with these joins made.
fn joined(shape: Shape, mut pairs: Pairs, joins: Vec<(Word, Word)>) -> Vec<Row> {
    for (block, goal) in joins {
        maps::join(shape, &mut pairs, block, goal);
    }
    pairs.into_iter().collect()
}

/// The rows with the first that has parts in a plan split.
fn with_parts_of_one(shape: Shape, rows: &[Row]) -> Vec<Row> {
    let has_parts = |(from, to): &Row| from.len().max(to.len()) < WORD_DIGITS;
    let mut rows = rows.to_vec();
    if let Some(place) = rows.iter().position(has_parts) {
        let parts = split(&rows[place], shape);
        rows.splice(place..=place, parts);
    }
    rows
}

/// A pair of two belts in parts, any other pair as it is.
fn belt_in_parts(shape: Shape, row: &Row) -> Vec<Row> {
    match (row.0.len(), row.1.len()) {
        (1, 1) => split(row, shape),
        _ => vec![row.clone()],
    }
}

/// Joins of the parts of a block that aren't due: the block and where it goes.
fn too_far(flaw: Flaw, shape: Shape, pairs: &Pairs) -> Vec<(Word, Word)> {
    let firsts = pairs
        .keys()
        .filter(|from| from.len() > 1 && from.ends_with(b"1"));
    let blocks = firsts.map(|from| from[..from.len() - 1].to_vec());
    let joins = blocks.filter_map(|block| {
        let images: Option<Vec<&Word>> = shape.parts(&block).iter().map(|p| pairs.get(p)).collect();
        let mut images: Vec<Word> = images?.into_iter().cloned().collect();
        let goal = images[0][..images[0].len() - 1].to_vec();
        if goal.is_empty() != (flaw == Flaw::AcrossBelts) {
            return None;
        }
        match flaw {
            Flaw::AnyOrder => images.sort(),
            Flaw::TwoWays => images.truncate(2),
            _ => {}
        }
        shape
            .parts(&goal)
            .starts_with(&images)
            .then_some((block, goal))
    });
    joins.collect()
}

/// The second implementation with a flaw.
pub struct Misjoined(pub Flaw);

impl Misjoined {
    /// A sound plan as this copy keeps it.
    fn spoiled(&self, plan: &Plan) -> Plan {
        let (shape, rows) = rows_of(plan);
        self.kept(shape, rows.into_iter().collect())
    }

    fn kept(&self, shape: Shape, table: Pairs) -> Plan {
        value(shape, &kept_rows(self.0, shape, table))
    }

    fn made(&self, made: Made) -> Made {
        match made.number {
            0 => Made::plan(self.spoiled(&made.plan)),
            _ => made,
        }
    }
}

/// The shape and rows of a value, whatever it is.
fn rows_of(value: &Plan) -> (Shape, Vec<Row>) {
    let shape = Shape {
        arity: value.arity,
        roots: value.roots,
    };
    let pairs = value.from.iter().zip(&value.to).take(value.pairs);
    let rows = pairs.map(|(from, to)| (unpack(*from), unpack(*to)));
    (shape, rows.collect())
}

/// The plan that a copy kept, as a sound one would have it.
fn sound(value: &Plan) -> Plan {
    Second.keep(value).plan
}

/// The copy is asked through sound plans, and what it makes is spoiled again, so
/// that only the flaw shows.
impl Calls for Misjoined {
    fn verdict(&self, draft: &Plan) -> Verdict {
        Second.verdict(draft)
    }

    fn keep(&self, draft: &Plan) -> Kept {
        let verdict = Second.verdict(draft);
        if verdict.number != 0 {
            return Kept::refused(verdict);
        }
        let (shape, rows) = rows_of(draft);
        Kept::plan(self.kept(shape, rows.into_iter().collect()))
    }

    fn is_plan(&self, value: &Plan) -> bool {
        Second.is_plan(&sound(value))
    }

    fn follow(&self, first: &Plan, second: &Plan) -> Made {
        self.made(Second.follow(&sound(first), &sound(second)))
    }

    fn inverse(&self, plan: &Plan) -> Made {
        self.made(Second.inverse(&sound(plan)))
    }

    fn power(&self, plan: &Plan, k: i32) -> Made {
        self.made(Second.power(&sound(plan), k))
    }

    fn same(&self, first: &Plan, second: &Plan) -> Compared {
        let belts = |plan: &Plan| rows_of(plan).1.into_iter().map(|(from, to)| (from, to[0]));
        match self.0 {
            Flaw::SameByFromWords => Compared::plans(first.from == second.from),
            Flaw::SameByPairs => Compared::plans(first.pairs == second.pairs),
            Flaw::SameByFirstDigits => Compared::plans(belts(first).eq(belts(second))),
            Flaw::NeverSame => Compared::plans(false),
            _ => Second.same(&sound(first), &sound(second)),
        }
    }

    fn unmatched(&self, plan: &Plan, code: &[u8]) -> Matched {
        Second.unmatched(&sound(plan), code)
    }

    fn route(&self, plan: &Plan, code: &[u8], out: &mut [u8]) -> Routed {
        Second.route(&sound(plan), code, out)
    }

    fn list(&self, plan: &Plan, slot: u8, out: &mut [u8]) -> Written {
        let (shape, rows) = rows_of(plan);
        let mut lines = format!(
            "P\t{}\t{}\t{}\n",
            char::from(slot),
            shape.arity,
            shape.roots
        );
        for (from, to) in rows {
            let [from, to] = [from, to].map(|word| String::from_utf8_lossy(&word).into_owned());
            lines += &format!("M\t{from}\t{to}\n");
        }
        write((lines + "E\n").as_bytes(), out)
    }
}
