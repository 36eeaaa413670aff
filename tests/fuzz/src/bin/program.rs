//! The desk program beside the second implementation. The program's own `main`
//! is called once for each input, and what it reads and writes is served here:
//! in pieces of lengths that the input decides, and at times interrupted.

#![no_main]

use std::cell::RefCell;

use compare::judge::{expected, judge};
use fuzz::{harness, sum, told};
use sessions::Rng;

harness!(tried);

extern "C" {
    fn desk_main() -> i32;
    fn __errno_location() -> *mut i32;
}

/// The errno of Linux for a call that was interrupted.
const EINTR: i32 = 4;

/// One run of the program: what is left to read and what was written.
struct Run {
    rng: Rng,
    /// The most bytes that a read gives or a write takes.
    piece: usize,
    input: Vec<u8>,
    read: usize,
    output: Vec<u8>,
}

thread_local! {
    static RUN: RefCell<Option<Run>> = const { RefCell::new(None) };
}

fn tried(input: &[u8]) {
    let steps = expected(input);
    let output = output(input);
    if let Some(difference) = judge(&steps, &output) {
        panic!("{}", told(&difference));
    }
}

/// What the program writes for an input.
fn output(input: &[u8]) -> Vec<u8> {
    let mut rng = Rng::new(sum(input));
    let piece = *rng.pick(&[1, 3, 40, 1101, 5000, usize::MAX]);
    let run = Run {
        rng,
        piece,
        input: input.to_vec(),
        read: 0,
        output: Vec::new(),
    };
    RUN.set(Some(run));
    // SAFETY: the program takes no argument and keeps nothing between runs.
    let status = unsafe { desk_main() };
    assert_eq!(status, 0, "the program's status");
    let run = RUN.take().expect("the run that was begun");
    assert_eq!(run.read, run.input.len(), "bytes that the program read");
    run.output
}

impl Run {
    /// How many of these bytes move in one call; none where it is interrupted,
    /// as a call may be before any byte has moved.
    fn some(&mut self, length: usize) -> Option<usize> {
        let most = length.min(self.piece);
        match self.piece {
            usize::MAX => Some(most),
            _ if self.rng.chance(5) => None,
            _ => Some(most.min(1 + self.rng.below(most.max(1)))),
        }
    }
}

/// What a call of the system answers. Of one that is interrupted errno tells.
fn answer(count: Option<usize>) -> isize {
    match count {
        Some(count) => count as isize,
        None => {
            // SAFETY: the C library lends each thread a number of its own.
            unsafe { *__errno_location() = EINTR };
            -1
        }
    }
}

/// The `read` of the program.
#[no_mangle]
extern "C" fn desk_read(file: i32, to: *mut u8, room: usize) -> isize {
    assert_eq!(file, 0, "the program reads standard input");
    RUN.with_borrow_mut(|run| {
        let run = run.as_mut().expect("a run");
        let count = run.some(room.min(run.input.len() - run.read));
        let piece = &run.input[run.read..run.read + count.unwrap_or(0)];
        // SAFETY: the program lends this much room, and the piece is no longer.
        unsafe { to.copy_from_nonoverlapping(piece.as_ptr(), piece.len()) };
        run.read += piece.len();
        answer(count)
    })
}

/// The `write` of the program.
#[no_mangle]
extern "C" fn desk_write(file: i32, from: *const u8, length: usize) -> isize {
    assert_eq!(file, 1, "the program writes standard output");
    RUN.with_borrow_mut(|run| {
        let run = run.as_mut().expect("a run");
        let count = run.some(length);
        // SAFETY: the program lends this many bytes, of which some are taken.
        let bytes = unsafe { std::slice::from_raw_parts(from, count.unwrap_or(0)) };
        run.output.extend_from_slice(bytes);
        answer(count)
    })
}
