//! Time of a job under each version of the calls. The versions take turns
//! within each round, so that a slow moment of the machine meets all of them,
//! and the best round of each counts.

use std::time::{Duration, Instant};

use library::Calls;

use crate::work::Job;

/// How many rounds there are.
const ROUNDS: usize = 15;

/// A version makes its calls again and again for about this long in a round.
const TURN: Duration = Duration::from_millis(4);

/// The microseconds of one call of the job under each version.
pub fn microseconds<const N: usize>(job: &Job, versions: &[&dyn Calls; N]) -> [f64; N] {
    let repeats = versions.map(|calls| repeats(job, calls));
    let mut best = [f64::INFINITY; N];
    for round in 0..ROUNDS {
        for turn in 0..N {
            let version = (round + turn) % N;
            let time = time(job, versions[version], repeats[version]);
            let calls = repeats[version] * job.tasks.len();
            best[version] = best[version].min(time.as_secs_f64() * 1e6 / calls as f64);
        }
    }
    best
}

/// How often a job fits into a turn; at least once.
fn repeats(job: &Job, calls: &dyn Calls) -> usize {
    let mut repeats = 1;
    while time(job, calls, repeats) < TURN / 2 {
        repeats *= 2;
    }
    repeats
}

fn time(job: &Job, calls: &dyn Calls, repeats: usize) -> Duration {
    let start = Instant::now();
    for _ in 0..repeats {
        job.run(calls);
    }
    start.elapsed()
}
