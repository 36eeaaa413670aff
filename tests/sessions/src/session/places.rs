//! The step that asks W for places (E7): images at both ends of a listing and between
//! them, and blocks at its start, in its middle and at its end.

use super::{name, Held, Session};
use crate::plans::{self, Word};

impl Session {
    /// W on a plan that is often loaded for it, or on the inverse of one, and now and
    /// then behind its listing.
    pub(super) fn places(&mut self) {
        let mut slot = match self.rng.chance(65) {
            true => self.load_many_pairs(),
            false => self.held_slot(),
        };
        let Some(held) = self.slots[slot].clone() else {
            return self.record(&[b"W", name(slot), b"1"]);
        };
        let inverted = self.rng.chance(30);
        if inverted {
            let target = self.target(slot);
            self.record(&[b"I", name(slot), name(target)]);
            self.enter_result(slot, target);
            slot = target;
        }
        if self.rng.chance(25) {
            self.record(&[b"L", name(slot)]);
        }
        let words = self.words_in_order(&held, inverted);
        let last = words.len() - 1;
        let mut places = vec![0, last, last.saturating_sub(1)];
        places.extend((0..5).map(|_| self.rng.below(words.len())));
        self.rng.shuffle(&mut places);
        for place in places {
            let length = *self.rng.pick(&[0, 0, 1, 2, 8]);
            let tail = plans::random_code(&mut self.rng, held.shape, length + 1);
            let code = [&words[place], &tail[1..]].concat();
            self.record(&[b"W", name(slot), &code]);
        }
        for place in [0, self.rng.below(words.len()), last] {
            let word = &words[place];
            // mostly the front above the word alone, whose block is a small one
            let end = match self.rng.chance(60) {
                true => word.len() - 1,
                false => self.rng.between(1, word.len()),
            };
            self.record(&[b"W", name(slot), &word[..end.max(1)]]);
        }
    }

    /// Loads a plan of many pairs, often of as many as there may be, and says where.
    fn load_many_pairs(&mut self) -> usize {
        let slot = self.some_slot();
        let shape = self.some_shape();
        let most = shape.most_splits();
        let splits = match self.rng.chance(40) {
            true => most,
            false => self.rng.between(most.min(2), most),
        };
        let mut rows = plans::any_plan(&mut self.rng, shape, splits);
        self.rng.shuffle(&mut rows);
        self.load(slot, shape, &rows);
        self.enter(slot, shape, rows);
        slot
    }

    /// The words of the from column, or of the to column, in digit order. Those of a
    /// plan that came from another aren't known here, and long codes do for them.
    fn words_in_order(&mut self, held: &Held, to_words: bool) -> Vec<Word> {
        let rows = held.rows.iter();
        let mut words: Vec<Word> = match to_words {
            true => rows.map(|(_, to)| to.clone()).collect(),
            false => rows.map(|(from, _)| from.clone()).collect(),
        };
        if words.is_empty() {
            words = (0..8)
                .map(|_| plans::random_code(&mut self.rng, held.shape, 16))
                .collect();
        }
        words.sort();
        words
    }
}
