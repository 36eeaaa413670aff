//! What a check has seen. A check that never reaches a kind of answer proves
//! nothing about it, so each ends by demanding the kinds that it is there for.

use std::collections::BTreeMap;

/// How often each kind of answer came up.
#[derive(Default)]
pub struct Tally {
    seen: BTreeMap<String, usize>,
}

impl Tally {
    pub fn count(&mut self, kind: impl Into<String>) {
        *self.seen.entry(kind.into()).or_default() += 1;
    }

    /// Counts a kind where the condition holds.
    pub fn count_if(&mut self, condition: bool, kind: &str) {
        if condition {
            self.count(kind);
        }
    }

    /// Fails unless each of these kinds came up at least so often.
    pub fn demand<K: AsRef<str>>(&self, least: usize, kinds: &[K]) {
        for kind in kinds {
            let seen = self.seen.get(kind.as_ref()).copied().unwrap_or(0);
            assert!(
                seen >= least,
                "`{}` came up {seen} times and should {least} times: {:?}",
                kind.as_ref(),
                self.seen
            );
        }
    }
}

#[cfg(test)]
mod tests {
    use super::*;

    #[test]
    #[should_panic(expected = "`b` came up 1 times")]
    fn a_kind_that_is_too_rare_fails() {
        let mut tally = Tally::default();
        for kind in ["a", "a", "b"] {
            tally.count(kind);
        }
        tally.demand(2, &["a"]);
        tally.demand(2, &["a", "b"]);
    }
}
