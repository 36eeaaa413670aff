//! What the harnesses share: libFuzzer's entry points (`harness!`), changes to
//! an input line by line (`mutation`), and which inputs are tried at all. An
//! input is a session in every harness: the cases are seeds as they stand.

use compare::judge::Difference;
use sessions::Rng;

pub mod mutation;

/// The most that the exponents of an input may come to. A power is made step by
/// step, and at 128 pairs the second implementation takes a second for these:
/// with many more an input would look as one that hangs.
const STEPS: u32 = 8000;

/// The largest size of an exponent that isn't refused at once.
const LARGEST: u32 = 1000;

/// Whether an input is tried.
pub fn is_tried(input: &[u8]) -> bool {
    let lines = input.split(|byte| *byte == b'\n');
    lines.filter_map(steps).sum::<u32>() <= STEPS
}

/// The steps of a power, if the line asks for one.
fn steps(line: &[u8]) -> Option<u32> {
    let mut fields = line.split(|byte| *byte == b'\t');
    if fields.next() != Some(b"K") {
        return None;
    }
    let size = exponent(fields.nth(1)?).unsigned_abs();
    (size <= LARGEST).then_some(size)
}

/// A number that bytes decide, for what an input doesn't say itself: in which
/// pieces it is read, or how much room there is for a reply.
pub fn sum(bytes: &[u8]) -> u64 {
    bytes.iter().fold(0xcbf2_9ce4_8422_2325, |sum, byte| {
        (sum ^ u64::from(*byte)).wrapping_mul(0x0100_0000_01b3)
    })
}

/// The lines of an input, each with a number that it and the line before it
/// decide: most lines stay as they are when one of them is changed.
pub fn lines(input: &[u8]) -> impl Iterator<Item = (&[u8], usize)> {
    let mut before = 0;
    input.split(|byte| *byte == b'\n').map(move |line| {
        let own = sum(line);
        let seed = own ^ std::mem::replace(&mut before, own).rotate_left(32);
        (line, Rng::new(seed).number() as usize)
    })
}

/// The number that a field of K says; where it says none, any number.
pub fn exponent(field: &[u8]) -> i32 {
    let said = std::str::from_utf8(field).ok().and_then(|k| k.parse().ok());
    said.unwrap_or(sum(field) as i32)
}

/// What is said of a program that replies wrongly.
pub fn told(difference: &Difference) -> String {
    let text = |bytes: &[u8]| format!("{:?}", String::from_utf8_lossy(bytes));
    let Difference {
        index,
        record,
        expected,
        got,
    } = difference;
    format!(
        "the program differs at record {index}, {}:\nexpected {}\ngot      {}",
        text(record),
        text(expected),
        text(got)
    )
}

/// libFuzzer's entry points, for a function that takes an input and panics
/// where a difference shows. A panic ends the run, as a signal does.
#[macro_export]
macro_rules! harness {
    ($tried:path) => {
        #[no_mangle]
        extern "C" fn LLVMFuzzerTestOneInput(bytes: *const u8, length: usize) -> i32 {
            // SAFETY: libFuzzer lends this many bytes, and no null.
            let input = unsafe { std::slice::from_raw_parts(bytes, length) };
            if $crate::is_tried(input) {
                $tried(input);
            }
            0
        }

        #[no_mangle]
        extern "C" fn LLVMFuzzerCustomMutator(
            bytes: *mut u8,
            length: usize,
            most: usize,
            seed: u32,
        ) -> usize {
            // SAFETY: libFuzzer lends room for the most bytes, to us alone.
            let room = unsafe { std::slice::from_raw_parts_mut(bytes, most) };
            $crate::mutation::mutate(room, length, seed.into())
        }
    };
}
