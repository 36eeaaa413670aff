//! The calls of the desk, as anything that offers them has them: the proved
//! desk, the second implementation, or a broken copy of it. The checks are
//! written over this trait.

use reference::LINE_BYTES;

use crate::values::{Desk, Done, Fed, Job, Written, LONGEST_REPLY};

/// Each call answers for every value: a refusal is an answer too.
pub trait Calls {
    /// A desk with empty slots, station 0 named, all counts 0 and all rights 2.
    fn fresh(&self) -> Desk;

    /// The size of a desk in bytes.
    fn size(&self) -> usize;

    /// Whether the value is a desk.
    fn is_desk(&self, desk: &Desk) -> bool;

    /// Does what a line says and writes the reply: 15, then the refusals of
    /// the record, then 14.
    fn line(&self, desk: &mut Desk, line: &[u8], out: &mut [u8]) -> Written;

    /// Does a record without text: 15, then its refusals.
    fn job(&self, desk: &mut Desk, job: Job) -> Done;

    /// Does what the lines of a piece of input say and writes all replies, refusals
    /// too: 15, then 14. Where an offer has nothing of its own for it, it goes line
    /// by line.
    fn feed(&self, desk: &mut Desk, overlong: bool, input: &[u8], out: &mut [u8]) -> Fed {
        if !self.is_desk(desk) {
            return Fed::refused(15, overlong);
        }
        if out.len() < LONGEST_REPLY {
            return Fed::refused(14, overlong);
        }
        let mut fed = Fed::refused(0, overlong);
        while out.len() - fed.length >= LONGEST_REPLY {
            let left = &input[fed.taken..];
            let Some(end) = left.iter().position(|byte| *byte == b'\n') else {
                fed.overlong |= left.len() > LINE_BYTES;
                fed.taken += if fed.overlong { left.len() } else { 0 };
                break;
            };
            let line = match fed.overlong {
                true => &[0; LINE_BYTES + 1],
                false => &left[..end],
            };
            let answer = self.line(desk, line, &mut out[fed.length..]);
            let refusal = refusal_line(answer);
            out[fed.length..fed.length + refusal.len()].copy_from_slice(&refusal);
            fed.length += answer.length + refusal.len();
            fed.taken += end + 1;
            fed.overlong = false;
        }
        fed
    }
}

/// The line that the desk program writes for a refusal; nothing for a job done.
pub fn refusal_line(answer: Written) -> Vec<u8> {
    let Written { number, column, .. } = answer;
    let line = match (number, column) {
        (0, _) => String::new(),
        (_, 0) => format!("no\t{number}\n"),
        _ => format!("no\t{number}\t{}\n", char::from(column)),
    };
    line.into_bytes()
}
