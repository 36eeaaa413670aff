//! The calls of the library of plans on packed words in plain Rust, written for
//! speed: sorted arrays on the stack, one pass where one is enough, a search by
//! halves for codes. Every check of the library is made here too.

mod columns;
pub mod desk;
mod exercise;
mod numerals;
mod table;
mod words;

use std::ops::Range;

use library::{Calls, Compared, Kept, Made, Matched, Plan, Routed, Verdict, Written, PLACES};

use columns::{draft, plan, Column};
use table::{product, Table};
use words::{aligned, begins, digits, Shape};

const WRONG_CODE: u8 = 4;
const WRONG_SLOT: u8 = 8;
const SHAPES_DIFFER: u8 = 10;
const BEYOND_LIMITS: u8 = 11;
const WRONG_EXPONENT: u8 = 12;
const SHORT_CODE: u8 = 13;
const SHORT_BUFFER: u8 = 14;
const NO_PLAN: u8 = 15;

/// The version on arrays.
pub struct Arrays;

impl Calls for Arrays {
    fn verdict(&self, value: &Plan) -> Verdict {
        let no_draft = Verdict {
            number: NO_PLAN,
            column: 0,
        };
        draft(value).map_or(no_draft, |shape| columns::verdict(shape, value))
    }

    fn keep(&self, value: &Plan) -> Kept {
        let verdict = self.verdict(value);
        if verdict.number != 0 {
            return Kept::refused(verdict);
        }
        Kept::plan(kept(value))
    }

    fn is_plan(&self, value: &Plan) -> bool {
        plan(value).is_some()
    }

    fn follow(&self, first: &Plan, second: &Plan) -> Made {
        let (Some(shape), Some(other)) = (plan(first), plan(second)) else {
            return Made::refused(NO_PLAN);
        };
        if shape != other {
            return Made::refused(SHAPES_DIFFER);
        }
        let starts = Column::new(&second.from, second.pairs);
        made(product(shape, first, second, &starts))
    }

    fn inverse(&self, value: &Plan) -> Made {
        match plan(value) {
            None => Made::refused(NO_PLAN),
            Some(_) => Made::plan(inverse(value)),
        }
    }

    fn power(&self, value: &Plan, k: i32) -> Made {
        let Some(shape) = plan(value) else {
            return Made::refused(NO_PLAN);
        };
        if !(-1000..=1000).contains(&k) {
            return Made::refused(WRONG_EXPONENT);
        }
        let base = if k < 0 { inverse(value) } else { *value };
        made(power(shape, &base, k.unsigned_abs()))
    }

    fn same(&self, first: &Plan, second: &Plan) -> Compared {
        let (Some(shape), Some(other)) = (plan(first), plan(second)) else {
            return Compared::refused(NO_PLAN);
        };
        if shape != other {
            return Compared::refused(SHAPES_DIFFER);
        }
        // Reduced plans in order act alike only if they are the same.
        Compared::plans(first == second)
    }

    fn unmatched(&self, value: &Plan, code: &[u8]) -> Matched {
        let matched = plan(value)
            .filter(|shape| words::is_code(*shape, code))
            .and_then(|_| matching(value, code));
        matched.map_or(Matched::nothing(code.len()), |index| Matched {
            tail: code.len() - digits(value.from[index]) as usize,
            place: index + 1,
        })
    }

    fn route(&self, value: &Plan, code: &[u8], out: &mut [u8]) -> Routed {
        let Some(shape) = plan(value) else {
            return Routed::refused(NO_PLAN);
        };
        if !words::is_code(shape, code) {
            return Routed::refused(WRONG_CODE);
        }
        let Some(index) = matching(value, code) else {
            return Routed::refused(SHORT_CODE);
        };
        let tail = &code[digits(value.from[index]) as usize..];
        let length = digits(value.to[index]) as usize + tail.len();
        let Some(out) = out.get_mut(..length) else {
            return Routed::refused(SHORT_BUFFER);
        };
        let image = words::write(value.to[index], out);
        out[image..].copy_from_slice(tail);
        Routed::image(length, index + 1)
    }

    fn list(&self, value: &Plan, slot: u8, out: &mut [u8]) -> Written {
        let Some(shape) = plan(value) else {
            return Written::refused(NO_PLAN);
        };
        if !(b'A'..=b'H').contains(&slot) {
            return Written::refused(WRONG_SLOT);
        }
        let length = listing_length(value);
        match out.get_mut(..length) {
            None => Written::refused(SHORT_BUFFER),
            Some(out) => {
                write_listing(shape, value, slot, out);
                Written::bytes(length)
            }
        }
    }
}

fn made(plan: Option<Plan>) -> Made {
    plan.map_or(Made::refused(BEYOND_LIMITS), Made::plan)
}

/// The plan of an accepted draft: ordered and reduced.
fn kept(value: &Plan) -> Plan {
    let shape = Shape {
        arity: value.arity,
        roots: value.roots,
    };
    let mut pairs = [(0, 0, 0); PLACES];
    let columns = value.from.iter().zip(&value.to);
    for (pair, (from, to)) in pairs.iter_mut().zip(columns) {
        *pair = (aligned(*from), *from, *to);
    }
    let pairs = &mut pairs[..value.pairs];
    pairs.sort_unstable_by_key(|pair| pair.0);
    let mut table = Table::new(shape);
    for (_, from, to) in pairs {
        table.push(*from, *to);
    }
    table.plan().expect("a draft has at most 128 pairs")
}

/// The inverse of a plan: nothing joins in it that didn't join before.
fn inverse(value: &Plan) -> Plan {
    let mut pairs = [(0, 0, 0); PLACES];
    let columns = value.from.iter().zip(&value.to);
    for (pair, (from, to)) in pairs.iter_mut().zip(columns) {
        *pair = (aligned(*to), *to, *from);
    }
    let pairs = &mut pairs[..value.pairs];
    pairs.sort_unstable_by_key(|pair| pair.0);
    let mut inverse = *value;
    for (place, (_, from, to)) in pairs.iter().enumerate() {
        inverse.from[place] = *from;
        inverse.to[place] = *to;
    }
    inverse
}

/// The plan so many times in a row, each power on the way within the limits.
fn power(shape: Shape, base: &Plan, times: u32) -> Option<Plan> {
    if times == 0 {
        let mut table = Table::new(shape);
        for belt in 1..=u64::from(shape.roots) {
            table.push(belt, belt);
        }
        return table.plan();
    }
    let starts = Column::new(&base.from, base.pairs);
    let mut power = *base;
    for _ in 1..times {
        power = product(shape, &power, base, &starts)?;
    }
    Some(power)
}

/// The index of the from-word that begins the code, if one does: it is the last
/// one not behind the first 16 digits of the code.
fn matching(value: &Plan, code: &[u8]) -> Option<usize> {
    let start = words::beginning(code);
    let from = &value.from[..value.pairs];
    let behind = from.partition_point(|word| aligned(*word) <= start);
    let index = behind.checked_sub(1)?;
    begins(aligned(from[index]), start).then_some(index)
}

/// The indices of the from-words that a code begins, where none begins the code:
/// they stand together, behind all words that are before the code.
fn extending(value: &Plan, code: &[u8]) -> Range<usize> {
    let start = words::beginning(code);
    let from = &value.from[..value.pairs];
    let first = from.partition_point(|word| aligned(*word) < start);
    let below = |word: &&u64| begins(start, aligned(**word));
    first..first + from[first..].iter().take_while(below).count()
}

fn listing_length(value: &Plan) -> usize {
    let columns = value.from.iter().zip(&value.to).take(value.pairs);
    let rows = columns.map(|(from, to)| 4 + (digits(*from) + digits(*to)) as usize);
    "P\tA\t2\t1\n".len() + rows.sum::<usize>() + "E\n".len()
}

/// Writes the records into a buffer of just their length.
fn write_listing(shape: Shape, value: &Plan, slot: u8, out: &mut [u8]) {
    let (arity, roots) = (b'0' + shape.arity, b'0' + shape.roots);
    out[..8].copy_from_slice(&[b'P', b'\t', slot, b'\t', arity, b'\t', roots, b'\n']);
    let mut at = 8;
    for (from, to) in value.from.iter().zip(&value.to).take(value.pairs) {
        at += words::write_row(b'M', *from, *to, &mut out[at..]);
    }
    out[at..].copy_from_slice(b"E\n");
}
