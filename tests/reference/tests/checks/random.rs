//! A small deterministic generator of numbers, bases, plans and codes. Plans
//! come in several kinds, since a random pairing of two large bases almost
//! never joins, has small order, or stays inside the limits when followed.

use reference::words::digit;
use reference::{Plan, Shape, Word, PAIRS, WORD_DIGITS};

/// A source of numbers (splitmix64): the same seed gives the same numbers.
pub struct Random(u64);

impl Random {
    pub fn new(seed: u64) -> Random {
        Random(seed)
    }

    pub fn next(&mut self) -> u64 {
        self.0 = self.0.wrapping_add(0x9e37_79b9_7f4a_7c15);
        let mut mixed = self.0;
        mixed = (mixed ^ (mixed >> 30)).wrapping_mul(0xbf58_476d_1ce4_e5b9);
        mixed = (mixed ^ (mixed >> 27)).wrapping_mul(0x94d0_49bb_1331_11eb);
        mixed ^ (mixed >> 31)
    }

    /// A number from 0 up to but not including `end`.
    pub fn below(&mut self, end: usize) -> usize {
        (self.next() % end as u64) as usize
    }

    pub fn one_in(&mut self, chances: usize) -> bool {
        self.below(chances) == 0
    }

    pub fn pick<'a, T>(&mut self, items: &'a [T]) -> &'a T {
        &items[self.below(items.len())]
    }

    pub fn shuffle<T>(&mut self, items: &mut [T]) {
        for place in (1..items.len()).rev() {
            items.swap(place, self.below(place + 1));
        }
    }

    /// A tail of so many ways.
    pub fn ways(&mut self, shape: Shape, length: usize) -> Word {
        let arity = usize::from(shape.arity);
        let way = |random: &mut Random| digit(1 + random.below(arity) as u8);
        (0..length).map(|_| way(self)).collect()
    }

    /// The word followed by random ways up to so many digits.
    pub fn extended(&mut self, shape: Shape, word: &[u8], length: usize) -> Word {
        let tail = self.ways(shape, length.saturating_sub(word.len()));
        [word, &tail].concat()
    }

    /// A code of so many digits.
    pub fn code(&mut self, shape: Shape, length: usize) -> Word {
        let belt = digit(1 + self.below(usize::from(shape.roots)) as u8);
        self.extended(shape, &[belt], length)
    }

    /// A number of simple expansions that gives a basis of at most `most`
    /// words (and none if the belts alone are more), often the largest.
    pub fn expansions(&mut self, shape: Shape, most: usize) -> usize {
        let room = most.saturating_sub(usize::from(shape.roots));
        let largest = room / usize::from(shape.arity - 1);
        match self.one_in(3) {
            true => largest,
            false => self.below(largest + 1),
        }
    }

    /// A basis made by so many simple expansions of the belts, in some order.
    /// Now and then the last word made is expanded again, for long words.
    pub fn basis(&mut self, shape: Shape, expansions: usize) -> Vec<Word> {
        let long = self.one_in(3);
        let mut words = shape.belts();
        for _ in 0..expansions {
            let place = self.expandable(&words, long);
            let word = words.swap_remove(place);
            let mut parts = shape.parts(&word);
            self.shuffle(&mut parts);
            words.extend(parts);
        }
        words
    }

    /// The place of a word that has parts in a plan.
    fn expandable(&mut self, words: &[Word], long: bool) -> usize {
        if long && words[words.len() - 1].len() < WORD_DIGITS && !self.one_in(8) {
            return words.len() - 1;
        }
        loop {
            let place = self.below(words.len());
            if words[place].len() < WORD_DIGITS {
                return place;
            }
        }
    }

    /// Pairs that are a plan of at most `most` pairs, as a person might type
    /// them: not reduced, in no order.
    pub fn typed(&mut self, shape: Shape, most: usize) -> Vec<(Word, Word)> {
        let kind = self.below(5);
        let expansions = match kind {
            // Room is left for expanding the pairs themselves.
            4 => self.expansions(shape, most / 4),
            _ => self.expansions(shape, most),
        };
        let mut from = self.basis(shape, expansions);
        let mut to = self.basis(shape, expansions);
        match kind {
            0 => {}
            // Order kept: from-words and to-words in the same order.
            1 => {
                from.sort();
                to.sort();
            }
            // One basis permuted: a plan of finite order.
            2 => {
                to = from.clone();
                self.shuffle(&mut to);
            }
            // One basis with two words exchanged: nearly everything joins.
            3 => {
                to = from.clone();
                let (one, other) = (self.below(to.len()), self.below(to.len()));
                to.swap(one, other);
            }
            // A small plan whose pairs are expanded below.
            _ => {}
        }
        let mut typed = from.into_iter().zip(to).collect();
        if kind == 4 {
            self.expand_pairs(shape, &mut typed, most);
        }
        self.shuffle(&mut typed);
        typed
    }

    /// Expands random pairs (w, v) into (w1, v1), .., (wn, vn).
    fn expand_pairs(&mut self, shape: Shape, typed: &mut Vec<(Word, Word)>, most: usize) {
        for _ in 0..self.below(40) {
            let place = self.below(typed.len());
            let longest = typed[place].0.len().max(typed[place].1.len());
            if longest == WORD_DIGITS || typed.len() + usize::from(shape.arity) > most + 1 {
                continue;
            }
            let (from, to) = typed.swap_remove(place);
            typed.extend(shape.parts(&from).into_iter().zip(shape.parts(&to)));
        }
    }

    /// A kept plan made from at most `most` pairs.
    pub fn plan(&mut self, shape: Shape, most: usize) -> Plan {
        let typed = self.typed(shape, most.min(PAIRS));
        Plan::keep(shape, &typed).expect("the generator makes plans")
    }

    /// A limit for the pairs of a plan: small, middling or that of the paper.
    pub fn size(&mut self) -> usize {
        *self.pick(&[6, 12, 24, 48, PAIRS, PAIRS])
    }
}

/// All shapes, n from 2 to 9 and r from 1 to 9.
pub fn shapes() -> Vec<Shape> {
    let all = (2..=9).flat_map(|arity| (1..=9).map(move |roots| Shape { arity, roots }));
    all.collect()
}
