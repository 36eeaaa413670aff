//! Tables of pairs under construction: pairs come in the order of their
//! from-words, and the last n of them are joined as soon as they can be, so
//! that a table is reduced when its last pair is in. Products are made here.

use library::{Plan, PLACES};

use super::columns::Column;
use super::words::{aligned, append, begins, tail, Shape};

/// One plan after another may need 254 pairs before they are joined.
const ROOM: usize = 256;

/// Whether the last n pairs join: all ways of one block in order, on both
/// sides. A belt by itself is a part of nothing.
pub fn joins(shape: Shape, from: &[u64], to: &[u64]) -> bool {
    let arity = usize::from(shape.arity);
    let (Some(last_from), Some(last_to)) = (from.last(), to.last()) else {
        return false;
    };
    let is_last_way = |word: u64| word & 15 == arity as u64 && word > 15;
    if !is_last_way(*last_from) || !is_last_way(*last_to) || from.len() < arity {
        return false;
    }
    let start = from.len() - arity;
    let in_turn = |words: &[u64], last: u64| {
        let ways = words[start..].iter().zip(1..);
        ways.fold(true, |all, (word, way)| {
            all & (*word == last - arity as u64 + way)
        })
    };
    in_turn(from, *last_from) && in_turn(to, *last_to)
}

/// Pairs in order, none of which join.
pub struct Table {
    shape: Shape,
    length: usize,
    from: [u64; ROOM],
    to: [u64; ROOM],
}

impl Table {
    pub fn new(shape: Shape) -> Table {
        Table {
            shape,
            length: 0,
            from: [0; ROOM],
            to: [0; ROOM],
        }
    }

    /// Adds the next pair and joins what it completes.
    pub fn push(&mut self, from: u64, to: u64) {
        self.put(from, to);
        while joins(
            self.shape,
            &self.from[..self.length],
            &self.to[..self.length],
        ) {
            let last = self.length - 1;
            let (block, goal) = (self.from[last] >> 4, self.to[last] >> 4);
            self.length -= usize::from(self.shape.arity);
            self.put(block, goal);
        }
    }

    fn put(&mut self, from: u64, to: u64) {
        self.from[self.length] = from;
        self.to[self.length] = to;
        self.length += 1;
    }

    /// The plan of the table, if it has few enough pairs.
    pub fn plan(&self) -> Option<Plan> {
        if self.length > PLACES {
            return None;
        }
        let mut plan = Plan {
            arity: self.shape.arity,
            roots: self.shape.roots,
            pairs: self.length,
            ..Plan::ZERO
        };
        plan.from[..self.length].copy_from_slice(&self.from[..self.length]);
        plan.to[..self.length].copy_from_slice(&self.to[..self.length]);
        Some(plan)
    }
}

/// *first then second*, of two plans of one shape, if it is within the limits.
/// `starts` are the aligned from-words of the second. Going through the first
/// in its order gives the from-words of the product in order.
///
/// A pair with a lengthened word never joins, because the plans are reduced;
/// so a word that gets too long decides at once.
pub fn product(shape: Shape, first: &Plan, second: &Plan, starts: &Column) -> Option<Plan> {
    let starts = starts.words();
    let mut table = Table::new(shape);
    let pairs = first.from[..first.pairs].iter().zip(&first.to);
    for (from, to) in pairs {
        let goal = aligned(*to);
        let place = starts.partition_point(|start| *start <= goal);
        if place > 0 && begins(starts[place - 1], goal) {
            let rest = tail(goal, starts[place - 1]);
            table.push(*from, append(second.to[place - 1], rest)?);
            continue;
        }
        let below = starts[place..].iter().zip(&second.to[place..]);
        for (start, image) in below.take_while(|(start, _)| begins(goal, **start)) {
            table.push(append(*from, tail(*start, goal))?, *image);
        }
    }
    table.plan()
}
