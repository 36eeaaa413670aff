//! The proved desk through its C interface: the declarations of the static
//! library, and a safe wrapper of each call. A desk is lent by reference and
//! changed there; lines and buffers are lent as a pointer and a length.

use crate::calls::Calls;
use crate::values::{Desk, Done, Fed, Job, Written};

#[link(name = "desk_c", kind = "static")]
extern "C" {
    fn desk_fresh() -> Desk;
    fn desk_size() -> usize;
    fn desk_is_desk(d: Desk) -> bool;
    fn desk_line(
        d: *mut Desk,
        line: *const u8,
        line_length: usize,
        out: *mut u8,
        out_length: usize,
    ) -> Written;
    fn desk_feed(
        d: *mut Desk,
        overlong: bool,
        input: *const u8,
        input_length: usize,
        out: *mut u8,
        out_length: usize,
    ) -> Fed;
    fn desk_do(d: *mut Desk, job: Job) -> Done;
}

/// The proved desk.
pub struct Library;

/// Values are asked nothing. Each pointer and length are those of a slice that
/// lives as long as the call; that of an empty slice is never null. A desk that
/// is written is lent to the call alone.
impl Calls for Library {
    fn fresh(&self) -> Desk {
        // SAFETY: it takes nothing.
        unsafe { desk_fresh() }
    }

    fn size(&self) -> usize {
        // SAFETY: it takes nothing.
        unsafe { desk_size() }
    }

    fn is_desk(&self, desk: &Desk) -> bool {
        // SAFETY: a value alone.
        unsafe { desk_is_desk(*desk) }
    }

    fn line(&self, desk: &mut Desk, line: &[u8], out: &mut [u8]) -> Written {
        let (read, write) = (line.as_ptr(), out.as_mut_ptr());
        // SAFETY: a desk and a buffer that are lent to us alone, and a line
        // that is only read.
        unsafe { desk_line(desk, read, line.len(), write, out.len()) }
    }

    fn job(&self, desk: &mut Desk, job: Job) -> Done {
        // SAFETY: a desk that is lent to us alone, and a value.
        unsafe { desk_do(desk, job) }
    }

    fn feed(&self, desk: &mut Desk, overlong: bool, input: &[u8], out: &mut [u8]) -> Fed {
        let (read, write) = (input.as_ptr(), out.as_mut_ptr());
        // SAFETY: a desk and a buffer that are lent to us alone, and a piece of
        // input that is only read.
        unsafe { desk_feed(desk, overlong, read, input.len(), write, out.len()) }
    }
}
