//! The desks that the benchmark of programs is itself, called with `--as`: the desk on
//! arrays, the desk by desk_feed, and the loop that finds lines and does no more. Each
//! reads standard input in pieces and writes to standard output.

use std::io::{self, Read, Write};

use desk_calls::{Calls, Library};

use crate::arrays::desk::Desk;

/// The bytes that are read at once.
const PIECE: usize = 65536;

/// The same where desk_feed is called, and the bytes that there are for its replies. Every
/// call checks the desk, so that larger pieces cost less.
const FED_PIECE: usize = 4 * PIECE;
const FED_REPLIES: usize = 2 * FED_PIECE;

/// Serves as the version of this name.
pub fn serve(version: &str) -> io::Result<()> {
    match version {
        "arrays" => arrays(),
        "feed" => feed(),
        "lines" => lines(),
        _ => Err(io::Error::other(format!("no such version: {version}"))),
    }
}

fn arrays() -> io::Result<()> {
    let mut desk = Desk::default();
    let mut piece = vec![0; PIECE];
    let mut replies = Vec::new();
    loop {
        let length = io::stdin().lock().read(&mut piece)?;
        if length == 0 {
            return Ok(());
        }
        desk.feed(&piece[..length], &mut replies);
        io::stdout().lock().write_all(&replies)?;
        replies.clear();
    }
}

/// What isn't taken of a piece stands in front of the next, and the last line may lack
/// its byte 10.
fn feed() -> io::Result<()> {
    let mut fed = Fed {
        desk: Box::new(Library.fresh()),
        overlong: false,
        replies: vec![0; FED_REPLIES],
    };
    let (mut input, mut kept) = (vec![0; FED_PIECE], 0);
    loop {
        let count = io::stdin().lock().read(&mut input[kept..])?;
        if count == 0 && (kept > 0 || fed.overlong) {
            input[kept] = b'\n';
            fed.answer(&input[..=kept])?;
        }
        if count == 0 {
            return Ok(());
        }
        let end = kept + count;
        let taken = fed.answer(&input[..end])?;
        input.copy_within(taken..end, 0);
        kept = end - taken;
    }
}

/// The desk by desk_feed, with its buffer for replies.
struct Fed {
    desk: Box<desk_calls::Desk>,
    overlong: bool,
    replies: Vec<u8>,
}

impl Fed {
    /// Answers the whole lines of an input, in as many calls as their replies need, and
    /// gives the bytes that were taken.
    fn answer(&mut self, input: &[u8]) -> io::Result<usize> {
        let mut taken = 0;
        loop {
            let left = &input[taken..];
            let fed = Library.feed(&mut self.desk, self.overlong, left, &mut self.replies);
            if fed.number != 0 {
                return Err(io::Error::other(format!("refused with {}", fed.number)));
            }
            io::stdout().lock().write_all(&self.replies[..fed.length])?;
            taken += fed.taken;
            self.overlong = fed.overlong;
            if !input[taken..].contains(&b'\n') {
                return Ok(taken);
            }
        }
    }
}

fn lines() -> io::Result<()> {
    let mut piece = vec![0; PIECE];
    let mut found = 0;
    loop {
        let length = io::stdin().lock().read(&mut piece)?;
        if length == 0 {
            std::hint::black_box(found);
            return Ok(());
        }
        found += found_in(&piece[..length]);
    }
}

/// Where each line ends, found byte by byte and added up.
fn found_in(bytes: &[u8]) -> usize {
    let mut sum = 0;
    let mut start = 0;
    while let Some(length) = bytes[start..].iter().position(|byte| *byte == b'\n') {
        start += length + 1;
        sum += std::hint::black_box(start);
    }
    sum
}
