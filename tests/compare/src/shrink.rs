//! Making an input that shows a fault shorter: first the shortest prefix that
//! still shows it, then the removal of lines from that. Every trial is a run
//! of a program, so the number of trials and the time are limited.

use std::time::{Duration, Instant};

/// What is left of the trials and of the time.
pub struct Effort {
    trials: usize,
    until: Instant,
}

impl Effort {
    pub fn new(trials: usize, time: Duration) -> Effort {
        Effort {
            trials,
            until: Instant::now() + time,
        }
    }

    fn spend(&mut self) -> bool {
        if self.trials == 0 || Instant::now() >= self.until {
            return false;
        }
        self.trials -= 1;
        true
    }
}

/// How many lines from the beginning suffice for the fault. A desk reads from
/// the beginning on, so what fails early fails with more lines, too, and the
/// number can be found by halving. The fault shows on all lines.
pub fn shortest_prefix<L>(
    lines: &[L],
    effort: &mut Effort,
    fails: &mut dyn FnMut(&[L]) -> bool,
) -> usize {
    let (mut passing, mut failing) = (0, lines.len());
    while failing - passing > 1 && effort.spend() {
        let middle = passing + (failing - passing) / 2;
        if fails(&lines[..middle]) {
            failing = middle;
        } else {
            passing = middle;
        }
    }
    failing
}

/// Removes lines, many at a time at first and then one by one, as long as
/// the fault stays.
pub fn shrink<L: Clone>(
    lines: &[L],
    effort: &mut Effort,
    fails: &mut dyn FnMut(&[L]) -> bool,
) -> Vec<L> {
    let mut kept = lines.to_vec();
    let mut size = (kept.len() / 2).max(1);
    loop {
        let removed = sweep(&mut kept, size, effort, fails);
        if size > 1 {
            size /= 2;
        } else if !removed {
            return kept;
        }
    }
}

/// Tries to remove each run of `size` lines, from the end on: later lines
/// rest on earlier ones, and go more easily. True if one could go.
fn sweep<L: Clone>(
    kept: &mut Vec<L>,
    size: usize,
    effort: &mut Effort,
    fails: &mut dyn FnMut(&[L]) -> bool,
) -> bool {
    let mut removed = false;
    let mut end = kept.len();
    while end > 0 && effort.spend() {
        let start = end.saturating_sub(size);
        let fewer = [&kept[..start], &kept[end..]].concat();
        if fails(&fewer) {
            *kept = fewer;
            removed = true;
        }
        end = start;
    }
    removed
}

#[cfg(test)]
mod tests {
    use super::*;

    fn enough() -> Effort {
        Effort::new(10_000, Duration::from_secs(60))
    }

    #[test]
    fn the_prefix_ends_with_the_line_that_fails() {
        let lines: Vec<u32> = (0..1000).collect();
        for culprit in [0, 1, 499, 998, 999] {
            let mut trials = 0;
            let mut fails = |some: &[u32]| {
                trials += 1;
                some.contains(&culprit)
            };
            let length = shortest_prefix(&lines, &mut enough(), &mut fails);
            assert_eq!(length, culprit as usize + 1);
            assert!(trials <= 11);
        }
    }

    #[test]
    fn only_the_lines_that_matter_stay() {
        let lines: Vec<u32> = (0..300).collect();
        let mut fails = |some: &[u32]| [7, 8, 150, 299].iter().all(|line| some.contains(line));
        let kept = shrink(&lines, &mut enough(), &mut fails);
        assert_eq!(kept, [7, 8, 150, 299]);
    }

    #[test]
    fn lines_that_can_go_only_in_order_go_as_well() {
        // A line may only go when no line after it but the last is there.
        let lines: Vec<u32> = (0..20).collect();
        let mut fails = |some: &[u32]| match some.split_last() {
            Some((19, before)) => before.iter().zip(0..).all(|(line, place)| *line == place),
            _ => false,
        };
        assert_eq!(shrink(&lines, &mut enough(), &mut fails), [19]);
    }

    #[test]
    fn the_effort_is_limited() {
        let lines: Vec<u32> = (0..1000).collect();
        let mut trials = 0;
        let mut fails = |_: &[u32]| {
            trials += 1;
            false
        };
        let mut effort = Effort::new(25, Duration::from_secs(60));
        assert_eq!(shrink(&lines, &mut effort, &mut fails), lines);
        assert_eq!(trials, 25);
        let mut trials = 0;
        let mut fails = |_: &[u32]| {
            trials += 1;
            true
        };
        let mut none = Effort::new(25, Duration::ZERO);
        assert_eq!(shortest_prefix(&lines, &mut none, &mut fails), 1000);
        assert_eq!(trials, 0);
    }
}
