//! The work that is measured: jobs of a few tasks each, on plans made from a
//! fixed seed. A task is one call with its arguments; its answer can be had as
//! a value, so that all versions are seen to agree before they are measured.

use std::hint::black_box;

use library::packed::{plan_value, value};
use library::random::bases::{even_basis, splits_within};
use library::random::codes::{code, Kind};
use library::random::{plans, Rng};
use library::{Calls, Compared, Kept, Made, Matched, Plan, Routed, Verdict, Written};
use reference::Shape;

/// The shape of all plans that are measured: that of binary trees.
const SHAPE: Shape = Shape { arity: 2, roots: 1 };

/// How many tasks a job has, so that it isn't the same data every time.
const TASKS: usize = 8;

/// More bytes than any image or listing has.
const ROOM: usize = 5000;

/// One call with its arguments.
pub enum Task {
    Verdict(Plan),
    Keep(Plan),
    IsPlan(Plan),
    Follow(Plan, Plan),
    Inverse(Plan),
    Power(Plan, i32),
    Same(Plan, Plan),
    Unmatched(Plan, Vec<u8>),
    Route(Plan, Vec<u8>),
    List(Plan),
}

/// What a call answers, with the bytes that it wrote.
#[derive(Debug, PartialEq)]
pub enum Answer {
    Verdict(Verdict),
    Kept(Box<Kept>),
    IsPlan(bool),
    Made(Box<Made>),
    Compared(Compared),
    Unmatched(Matched),
    Routed(Routed, Vec<u8>),
    Written(Written, Vec<u8>),
}

impl Task {
    /// The answer of a version of the calls.
    pub fn answer(&self, calls: &dyn Calls) -> Answer {
        let mut out = vec![0; ROOM];
        match self {
            Task::Verdict(draft) => Answer::Verdict(calls.verdict(draft)),
            Task::Keep(draft) => Answer::Kept(Box::new(calls.keep(draft))),
            Task::IsPlan(plan) => Answer::IsPlan(calls.is_plan(plan)),
            Task::Follow(a, b) => Answer::Made(Box::new(calls.follow(a, b))),
            Task::Inverse(plan) => Answer::Made(Box::new(calls.inverse(plan))),
            Task::Power(plan, k) => Answer::Made(Box::new(calls.power(plan, *k))),
            Task::Same(a, b) => Answer::Compared(calls.same(a, b)),
            Task::Unmatched(plan, code) => Answer::Unmatched(calls.unmatched(plan, code)),
            Task::Route(plan, code) => Answer::Routed(calls.route(plan, code, &mut out), out),
            Task::List(plan) => Answer::Written(calls.list(plan, b'A', &mut out), out),
        }
    }

    /// Makes the call for its time alone.
    fn run(&self, calls: &dyn Calls, out: &mut [u8; ROOM]) {
        match black_box(self) {
            Task::Verdict(draft) => spend(&calls.verdict(draft)),
            Task::Keep(draft) => spend(&calls.keep(draft)),
            Task::IsPlan(plan) => spend(&calls.is_plan(plan)),
            Task::Follow(a, b) => spend(&calls.follow(a, b)),
            Task::Inverse(plan) => spend(&calls.inverse(plan)),
            Task::Power(plan, k) => spend(&calls.power(plan, *k)),
            Task::Same(a, b) => spend(&calls.same(a, b)),
            Task::Unmatched(plan, code) => spend(&calls.unmatched(plan, code)),
            Task::Route(plan, code) => spend(&calls.route(plan, code, out)),
            Task::List(plan) => spend(&calls.list(plan, b'A', out)),
        }
    }
}

/// Takes an answer, so that the call can't be left out.
fn spend<T>(answer: &T) {
    black_box(answer);
}

/// A line of the table: tasks of one kind.
pub struct Job {
    pub name: String,
    pub tasks: Vec<Task>,
}

impl Job {
    fn new(name: impl Into<String>, count: usize, mut task: impl FnMut() -> Task) -> Job {
        Job {
            name: name.into(),
            tasks: (0..count).map(|_| task()).collect(),
        }
    }

    /// Makes every call once.
    pub fn run(&self, calls: &dyn Calls) {
        let mut out = [0; ROOM];
        for task in &self.tasks {
            task.run(calls, &mut out);
        }
        black_box(&out);
    }
}

/// All jobs, in the order of the table.
pub fn jobs() -> Vec<Job> {
    let mut rng = Rng::new(2026);
    let rng = &mut rng;
    let mut jobs = drafts(rng);
    jobs.extend(products(rng));
    jobs.extend(powers(rng));
    jobs.extend(bytes(rng));
    jobs
}

fn drafts(rng: &mut Rng) -> Vec<Job> {
    vec![
        Job::new("verdict, 128 pairs", TASKS, || Task::Verdict(draft(rng))),
        Job::new("keep, 128 pairs, none join", TASKS, || {
            Task::Keep(draft(rng))
        }),
        Job::new("keep, 128 pairs, all join", TASKS, || {
            Task::Keep(spread_identity(rng))
        }),
        Job::new("is a plan, 8 pairs", TASKS, || {
            Task::IsPlan(permutation(rng, 8))
        }),
        Job::new("is a plan, 128 pairs", TASKS, || {
            Task::IsPlan(permutation(rng, 128))
        }),
    ]
}

fn products(rng: &mut Rng) -> Vec<Job> {
    let mut jobs: Vec<Job> = [8, 32, 128]
        .map(|pairs| {
            Job::new(format!("follow, {pairs} pairs, one basis"), TASKS, || {
                let [a, b] = permutations(rng, pairs);
                Task::Follow(a, b)
            })
        })
        .into();
    jobs.push(Job::new("follow, 32 pairs, several bases", TASKS, || {
        let [a, b] = apart(rng, 32);
        Task::Follow(a, b)
    }));
    jobs.push(Job::new("inverse, 128 pairs", TASKS, || {
        Task::Inverse(permutation(rng, 128))
    }));
    jobs.push(Job::new("same, 128 pairs, alike", TASKS, || {
        let plan = permutation(rng, 128);
        Task::Same(plan, plan)
    }));
    jobs
}

fn powers(rng: &mut Rng) -> Vec<Job> {
    let mut power = |pairs, k| {
        Job::new(format!("power {k}, {pairs} pairs"), 1, || {
            Task::Power(permutation(rng, pairs), k)
        })
    };
    vec![
        power(8, 10),
        power(8, 1000),
        power(128, 10),
        power(128, 1000),
    ]
}

fn bytes(rng: &mut Rng) -> Vec<Job> {
    let mut jobs = Vec::new();
    for pairs in [8, 128] {
        for digits in [10, 100, 1000] {
            let name = format!("route, {pairs} pairs, {digits} digits");
            jobs.push(Job::new(name, TASKS, || {
                let (plan, code) = routed(rng, pairs, digits);
                Task::Route(plan, code)
            }));
        }
    }
    jobs.push(Job::new("unmatched, 128 pairs, 100 digits", TASKS, || {
        let (plan, code) = routed(rng, 128, 100);
        Task::Unmatched(plan, code)
    }));
    jobs.push(Job::new("list, 128 pairs", TASKS, || {
        Task::List(permutation(rng, 128))
    }));
    jobs
}

/// A draft of two bases of 128 words that keeps all pairs, in any order.
fn draft(rng: &mut Rng) -> Plan {
    loop {
        let rows = plans::paired(rng, SHAPE, splits_within(SHAPE, 128));
        if plans::kept(SHAPE, &rows).size() == 128 {
            return value(SHAPE, &rows);
        }
    }
}

/// The plan that moves nothing on 128 pairs, in any order.
fn spread_identity(rng: &mut Rng) -> Plan {
    let words = even_basis(rng, SHAPE, splits_within(SHAPE, 128));
    let rows: Vec<_> = words.iter().cloned().zip(words.clone()).collect();
    value(SHAPE, &rows)
}

/// Two permutations of one basis, of just so many pairs when kept.
fn permutations(rng: &mut Rng, pairs: usize) -> [Plan; 2] {
    let words = even_basis(rng, SHAPE, splits_within(SHAPE, pairs));
    [(); 2].map(|()| loop {
        let plan = plans::kept(SHAPE, &plans::permuted(rng, &words));
        if plan.size() == pairs {
            return plan_value(&plan);
        }
    })
}

fn permutation(rng: &mut Rng, pairs: usize) -> Plan {
    let [plan, _] = permutations(rng, pairs);
    plan
}

/// Two plans of so many pairs on bases of their own, whose product is granted.
/// The pairs are in order on both sides: by chance a product would nearly
/// always have words of more than 16 digits.
fn apart(rng: &mut Rng, pairs: usize) -> [Plan; 2] {
    let splits = splits_within(SHAPE, pairs);
    loop {
        let rows = [(); 2].map(|()| plans::ordered(rng, SHAPE, splits));
        let [a, b] = rows.map(|rows| plans::kept(SHAPE, &rows));
        let whole = a.size() == pairs && b.size() == pairs;
        if whole && a.then(&b).is_ok() {
            return [plan_value(&a), plan_value(&b)];
        }
    }
}

/// A plan of so many pairs, and a code of so many digits that it routes.
fn routed(rng: &mut Rng, pairs: usize, digits: usize) -> (Plan, Vec<u8>) {
    let plan = permutation(rng, pairs);
    let kept = library::packed::kept(&plan).expect("a plan");
    loop {
        let long = code(rng, &kept, Kind::Longest);
        let code = &long.bytes()[..digits];
        if kept.route(code).is_ok() {
            return (plan, code.to_vec());
        }
    }
}
