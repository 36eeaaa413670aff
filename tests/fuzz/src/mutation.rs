//! How an input is changed: half of the time by libFuzzer, which knows bytes and
//! what they were compared with, and half of the time line by line. Plans that
//! hang together come from the random sessions, which bytes alone hardly find.

use std::sync::OnceLock;

use sessions::Rng;

extern "C" {
    fn LLVMFuzzerMutate(bytes: *mut u8, length: usize, most: usize) -> usize;
}

/// The most lines that are moved or put in at once.
const RUN: usize = 60;

/// How many lines of a random session are taken.
const BEGINNING: usize = 150;

/// The letters of the records, and D, which the libraries' harnesses take for
/// damage.
const LETTERS: &[u8] = b"PMEFIKSWLCTUXZGHD";

/// Changes the input that stands at the front of the room, and gives its length.
pub fn mutate(room: &mut [u8], length: usize, seed: u64) -> usize {
    let rng = &mut Rng::new(seed);
    if rng.chance(50) {
        // SAFETY: the room is ours, and the input is within it.
        return unsafe { LLVMFuzzerMutate(room.as_mut_ptr(), length, room.len()) };
    }
    let mut lines: Vec<Vec<u8>> = room[..length]
        .split_inclusive(|byte| *byte == b'\n')
        .map(<[u8]>::to_vec)
        .collect();
    for _ in 0..rng.between(1, 3) {
        change(rng, &mut lines);
    }
    let bytes = lines.concat();
    let length = bytes.len().min(room.len());
    room[..length].copy_from_slice(&bytes[..length]);
    length
}

/// One change to the lines.
fn change(rng: &mut Rng, lines: &mut Vec<Vec<u8>>) {
    let at = rng.below(lines.len() + 1);
    let run = run(rng, lines);
    match rng.below(10) {
        0 => drop(lines.drain(run)),
        1 => {
            let again = lines[run].to_vec();
            lines.splice(at..at, again);
        }
        2 => lines[run].reverse(),
        3 => {
            let (here, there) = (run.start, at.min(lines.len().saturating_sub(1)));
            if here < lines.len() {
                lines.swap(here, there);
            }
        }
        4..=6 => {
            let some = excerpt(rng);
            lines.splice(at..at, some);
        }
        _ => lines.insert(at, record(rng)),
    }
}

/// A run of some of the lines; none where there are none.
fn run(rng: &mut Rng, lines: &[Vec<u8>]) -> std::ops::Range<usize> {
    let start = rng.below(lines.len() + 1);
    let most = RUN.min(lines.len() - start);
    start..start + rng.below(most + 1)
}

/// Some lines of a random session: mostly from its beginning on, where plans are
/// typed that are worked on later.
fn excerpt(rng: &mut Rng) -> Vec<Vec<u8>> {
    let session = rng.pick(pool());
    if rng.chance(60) {
        let end = rng.below(session.len() + 1);
        return session[..end].to_vec();
    }
    let run = run(rng, session);
    session[run].to_vec()
}

/// The beginnings of random sessions that come to a product early: large plans
/// make an input slow, and hide what is done with them behind their pairs.
fn pool() -> &'static [Vec<Vec<u8>>] {
    static POOL: OnceLock<Vec<Vec<Vec<u8>>>> = OnceLock::new();
    POOL.get_or_init(|| {
        let beginning = |session: Vec<u8>| {
            let lines = session.split_inclusive(|byte| *byte == b'\n');
            lines.take(BEGINNING).map(<[u8]>::to_vec).collect()
        };
        let sessions = (0..600).map(sessions::session).map(beginning);
        let product = |session: &Vec<Vec<u8>>| session.iter().any(|line| line.starts_with(b"F\t"));
        sessions.filter(product).collect()
    })
}

/// A record of any letter, with fields that are mostly of the right form.
fn record(rng: &mut Rng) -> Vec<u8> {
    let letter = *rng.pick(LETTERS);
    let fields = match letter {
        b'P' => vec![slot(rng), digits(rng, 1), digits(rng, 1)],
        b'M' => vec![word(rng), word(rng)],
        b'F' => vec![slot(rng), slot(rng), slot(rng)],
        b'I' | b'S' => vec![slot(rng), slot(rng)],
        b'K' => vec![slot(rng), exponent(rng), slot(rng)],
        b'W' => vec![slot(rng), word(rng)],
        b'L' | b'C' => vec![slot(rng)],
        b'X' => vec![
            slot(rng),
            digits(rng, 1),
            digits(rng, 1),
            splits(rng),
            seed(rng),
        ],
        b'Z' => vec![digits(rng, 1)],
        b'G' => vec![digits(rng, 1), slot(rng), right(rng)],
        b'D' => {
            let place = vec![b'A' + rng.below(9) as u8];
            vec![place, (0..3).map(|_| rng.number() as u8).collect()]
        }
        _ => vec![],
    };
    let mut record = vec![letter];
    for field in fields {
        record.push(b'\t');
        record.extend(field);
    }
    record.push(b'\n');
    record
}

/// A right, mostly one that there is.
fn right(rng: &mut Rng) -> Vec<u8> {
    let rights = if rng.chance(90) { 3 } else { 10 };
    vec![b'0' + rng.below(rights) as u8]
}

/// A slot, mostly one of the first, so that records meet.
fn slot(rng: &mut Rng) -> Vec<u8> {
    let slots = if rng.chance(75) { 3 } else { 8 };
    vec![b'A' + rng.below(slots) as u8]
}

fn digits(rng: &mut Rng, count: usize) -> Vec<u8> {
    (0..count).map(|_| b'0' + rng.below(10) as u8).collect()
}

/// A word of small digits, mostly short enough for a plan.
fn word(rng: &mut Rng) -> Vec<u8> {
    let length = rng.between(1, 18);
    let ways = rng.between(2, 4);
    let digit = |_| b'1' + rng.below(ways) as u8;
    (0..length).map(digit).collect()
}

/// Splits of X, mostly few enough for a plan.
fn splits(rng: &mut Rng) -> Vec<u8> {
    let most = *rng.pick(&[4, 16, 99]);
    rng.below(most + 1).to_string().into_bytes()
}

/// A seed of X: in its range, at its ends and just beyond, or one that makes a word
/// of 17 digits of 99 splits.
fn seed(rng: &mut Rng) -> Vec<u8> {
    let known = [0, 1, 5, 19, 22, 2_147_483_646, 2_147_483_647, 4_294_967_297];
    let seed = match rng.below(4) {
        0 => *rng.pick(&known),
        1 => rng.number() % 10_000_000_000,
        _ => rng.number() % 2_147_483_647,
    };
    seed.to_string().into_bytes()
}

fn exponent(rng: &mut Rng) -> Vec<u8> {
    let size = match rng.below(4) {
        0 => rng.below(1003),
        _ => rng.below(20),
    };
    let sign = if rng.chance(50) { "-" } else { "" };
    format!("{sign}{size}").into_bytes()
}
