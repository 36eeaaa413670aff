//! The desk program: records on standard input, replies on standard output.
//! It answers every whole line it has read before it waits for more input, so
//! that a person at a terminal sees each reply.

use std::io::{self, ErrorKind, Read, Write};

use reference::Desk;

fn main() -> io::Result<()> {
    let mut input = io::stdin().lock();
    let mut output = io::stdout().lock();
    let mut desk = Desk::new();
    let mut chunk = [0; 8192];
    loop {
        let length = read_some(&mut input, &mut chunk)?;
        let mut replies = Vec::new();
        if length == 0 {
            desk.finish(&mut replies);
        } else {
            desk.feed(&chunk[..length], &mut replies);
        }
        output.write_all(&replies)?;
        output.flush()?;
        if length == 0 {
            return Ok(());
        }
    }
}

/// Reads what there is, waiting only if there is nothing; 0 is the end.
fn read_some(input: &mut impl Read, chunk: &mut [u8]) -> io::Result<usize> {
    loop {
        match input.read(chunk) {
            Err(error) if error.kind() == ErrorKind::Interrupted => continue,
            other => return other,
        }
    }
}
