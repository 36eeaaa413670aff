//! The steps that work on held plans and ask about them: F, I, K, S, W, L, C and
//! U, with the powers and the codes that they take. Each is one record, but that
//! W also comes with all fronts of a word, and U again and again between records
//! that change what it lists.

use super::{name, Held, Session};
use crate::plans::{self, Word};

impl Session {
    pub(super) fn follow(&mut self) {
        let a = self.held_slot();
        let b = self.mate(a);
        let c = self.target(a);
        self.record(&[b"F", name(a), name(b), name(c)]);
        self.enter_result(a, c);
    }

    pub(super) fn inverse(&mut self) {
        let a = self.held_slot();
        let c = self.target(a);
        self.record(&[b"I", name(a), name(c)]);
        self.enter_result(a, c);
    }

    pub(super) fn power(&mut self) {
        let a = self.held_slot();
        let c = self.target(a);
        let k = self.exponent(a);
        self.record(&[b"K", name(a), k.to_string().as_bytes(), name(c)]);
        self.enter_result(a, c);
    }

    /// An exponent: mostly small, sometimes at the limit or beyond. The ones
    /// near a thousand go to plans of few pairs more often, to save time.
    fn exponent(&mut self, slot: usize) -> i64 {
        let small = self.slots[slot]
            .as_ref()
            .is_some_and(|held| !held.rows.is_empty() && held.rows.len() <= 24);
        let size = match self.rng.below(20) {
            0..=9 => self.rng.below(7),
            10..=13 => self.rng.between(7, 40),
            14 | 15 if small || self.rng.chance(20) => *self.rng.pick(&[999, 1000, 1000]),
            16 => *self.rng.pick(&[1001, 1001, 1002, 9999]),
            17 => 0,
            _ => self.rng.between(1, 16),
        };
        if self.rng.chance(40) {
            -(size as i64)
        } else {
            size as i64
        }
    }

    pub(super) fn same(&mut self) {
        let a = self.held_slot();
        let b = self.mate(a);
        self.record(&[b"S", name(a), name(b)]);
    }

    pub(super) fn list(&mut self) {
        let a = self.held_slot();
        self.record(&[b"L", name(a)]);
    }

    pub(super) fn clear(&mut self) {
        let a = self.held_slot();
        self.record(&[b"C", name(a)]);
        if self.rights[self.named][a] > 1 {
            self.slots[a] = None;
        }
    }

    /// U a few times, mostly behind records that change its lines: a plan kept
    /// over another, two with as many pairs, or C.
    pub(super) fn survey(&mut self) {
        for _ in 0..self.rng.between(1, 3) {
            match self.rng.below(10) {
                0..=4 => self.keep_for_survey(),
                5 | 6 => self.load_belts(),
                7 => self.clear(),
                _ => {}
            }
            self.record(&[b"U"]);
        }
    }

    /// A power in any slot: 1 and -1 have as many pairs as the plan itself, so
    /// that two lines of U are equal in that, and 0 and 2 mostly have others.
    fn keep_for_survey(&mut self) {
        let (a, c) = (self.held_slot(), self.some_slot());
        let k = *self.rng.pick(&["1", "1", "-1", "0", "2"]);
        self.record(&[b"K", name(a), k.as_bytes(), name(c)]);
        self.enter_result(a, c);
    }

    pub(super) fn route(&mut self) {
        let a = self.held_slot();
        let code = self.code_for(a);
        self.record(&[b"W", name(a), &code]);
    }

    /// W with every front of a word, from the belt alone to the word itself,
    /// and with a wrong digit in one of them; sometimes of a plan that is loaded
    /// for the length of its words.
    pub(super) fn fronts(&mut self) {
        let a = match self.rng.chance(30) {
            true => self.load_deep_plan(),
            false => self.held_slot(),
        };
        let Some(held) = self.slots[a].clone() else {
            return self.record(&[b"W", name(a), b"1"]);
        };
        let word = self.word_of(&held);
        for end in 1..=word.len() {
            self.record(&[b"W", name(a), &word[..end]]);
        }
        let mut front = word[..self.rng.between(1, word.len())].to_vec();
        let place = self.rng.below(front.len());
        front[place] = plans::wrong_digit(&mut self.rng, held.shape, place);
        self.record(&[b"W", name(a), &front]);
    }

    /// A from-word, often the longest. Those of a plan that came from another
    /// aren't known here, and any word does for them.
    fn word_of(&mut self, held: &Held) -> Word {
        let longest = held
            .rows
            .iter()
            .map(|(from, _)| from)
            .max_by_key(|w| w.len());
        match longest {
            None => plans::random_code(&mut self.rng, held.shape, 6),
            Some(word) if self.rng.chance(40) => word.clone(),
            Some(_) => self.rng.pick(&held.rows).0.clone(),
        }
    }

    /// A code for a slot: behind one of its from-words, a beginning of one,
    /// any code of the shape, a few digits, or a very long one.
    fn code_for(&mut self, slot: usize) -> Word {
        let Some(held) = self.slots[slot].clone() else {
            return b"1".to_vec();
        };
        let length = self.rng.between(1, 20);
        let mut code = plans::random_code(&mut self.rng, held.shape, length);
        if held.rows.is_empty() {
            if self.rng.chance(50) {
                code.truncate(self.rng.between(1, 4));
            }
            return code;
        }
        let word = &self.rng.pick(&held.rows).0;
        match self.rng.below(10) {
            0..=3 => {
                code.splice(0..1, word.iter().copied());
                code
            }
            4 | 5 => word[..self.rng.between(1, word.len())].to_vec(),
            6 => word.clone(),
            7 => {
                let length = *self.rng.pick(&[1023, 1024]);
                plans::random_code(&mut self.rng, held.shape, length)
            }
            _ => code,
        }
    }
}
