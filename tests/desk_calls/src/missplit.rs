//! Jobs as a desk does them that is wrong about how many splits X may have: it
//! takes more than a line has digits for, or fewer, or refuses too many at the
//! wrong place in the order or with something else changed.

use crate::calls::Calls;
use crate::second::{Second, MOST_SPLITS};
use crate::values::{Desk, Done, Job};

/// What is wrong with the limit of splits.
#[derive(Clone, Copy, Debug, PartialEq, Eq)]
pub enum Limit {
    /// There is none.
    Missing,
    /// It is 100.
    OneMore,
    /// It is 98.
    OneLess,
    /// Splits are held to it as a signed byte: from 128 on they are below zero.
    Signed,
    /// Splits are cut to their last two digits.
    TwoDigits,
    /// It doesn't hold where this number would be answered without it, 0 where the
    /// plan would be kept.
    Behind(u8),
    /// It comes before 15.
    BeforeNoDesk,
    /// It holds for the jobs of all letters.
    OfEveryLetter,
    /// Too many splits leave the open plan open.
    OpenLeft,
    /// Too many splits raise the count.
    Counted,
}

pub const LIMITS: [Limit; 17] = [
    Limit::Missing,
    Limit::OneMore,
    Limit::OneLess,
    Limit::Signed,
    Limit::TwoDigits,
    Limit::Behind(0),
    Limit::Behind(2),
    Limit::Behind(3),
    Limit::Behind(4),
    Limit::Behind(5),
    Limit::Behind(8),
    Limit::Behind(16),
    Limit::Behind(17),
    Limit::BeforeNoDesk,
    Limit::OfEveryLetter,
    Limit::OpenLeft,
    Limit::Counted,
];

impl Limit {
    /// Does a job with this limit.
    pub fn job(self, second: &Second, desk: &mut Desk, job: Job) -> Done {
        match self {
            Limit::Missing => second.job_up_to(u8::MAX, desk, job),
            Limit::OneMore => second.job_up_to(MOST_SPLITS + 1, desk, job),
            Limit::OneLess => second.job_up_to(MOST_SPLITS - 1, desk, job),
            Limit::Signed if job.splits > 127 => second.job_up_to(u8::MAX, desk, job),
            Limit::TwoDigits => {
                let splits = job.splits % 100;
                second.job(desk, Job { splits, ..job })
            }
            Limit::Behind(number) => {
                let mut without = *desk;
                let answer = second.job_up_to(u8::MAX, &mut without, job);
                if answer.number != number {
                    return second.job(desk, job);
                }
                *desk = without;
                answer
            }
            _ if job.splits > MOST_SPLITS => self.refuse(second, desk, job),
            _ => second.job(desk, job),
        }
    }

    /// Does a job with too many splits.
    fn refuse(self, second: &Second, desk: &mut Desk, job: Job) -> Done {
        let before = *desk;
        let exercise = job.letter == b'X';
        let mut answer = second.job(desk, job);
        let refused = exercise && answer.number == 1;
        match self {
            Limit::BeforeNoDesk if exercise => answer.number = 1,
            Limit::OfEveryLetter if answer.number != 15 => {
                *desk = before.without_open();
                answer = Done::refused(1, 0);
            }
            Limit::OpenLeft if refused => *desk = before,
            Limit::Counted if refused => *desk.count() += 1,
            _ => {}
        }
        answer
    }
}

#[cfg(test)]
mod tests {
    use super::*;

    /// The seed that the checks take for plans of any number of splits: but for the
    /// limit, all up to 127 would be kept, and more have too many pairs.
    #[test]
    fn a_seed_for_every_number_of_splits() {
        let second = Second::default();
        for splits in 0..=255 {
            let job = Job {
                letter: b'X',
                a: b'A',
                b: 2,
                c: 1,
                k: 0,
                seed: 87,
                splits,
            };
            let done = Limit::Missing.job(&second, &mut second.fresh(), job);
            let number = if splits < 128 { 0 } else { 5 };
            assert_eq!(done.number, number, "{splits}");
        }
    }
}
