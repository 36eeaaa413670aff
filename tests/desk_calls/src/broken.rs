//! Copies of the second implementation that are wrong in one way each, as a desk
//! might well be. The checks must tell every one of them from a sound one; that
//! shows what an agreement of the proved desk with the second implementation is
//! worth.

use std::borrow::Cow;
use std::cmp::Reverse;

use library::{packed, Plan};
use reference::COUNT_LIMIT;

use crate::calls::Calls;
use crate::checks::side_by_side::AMPLE;
use crate::faults::Fault;
use crate::misread::{self, Text};
use crate::second::Second;
use crate::values::{Desk, Done, Job, Written, OPEN, SLOTS};

/// The second implementation with a fault.
pub struct Broken {
    fault: Fault,
    second: Second,
}

impl Broken {
    pub fn new(fault: Fault) -> Broken {
        Broken {
            fault,
            second: Second::default(),
        }
    }

    fn is(&self, fault: Fault) -> bool {
        self.fault == fault
    }

    /// The desk as the faulty test of desks sees it.
    fn seen(&self, desk: &Desk) -> Desk {
        let mut seen = *desk;
        // the other faults are blind to what makes a value no desk
        if self.second.is_desk(desk) && !self.is(Fault::OpenMustBePlan) {
            return seen;
        }
        match self.fault {
            Fault::BehindIgnored => (0..=OPEN).for_each(|block| clear_behind(&mut seen, block)),
            Fault::EmptyIgnored => {
                for slot in 0..SLOTS {
                    if seen.blocks[slot] == Default::default() {
                        seen.words(slot).fill(0);
                    }
                }
            }
            Fault::OrderIgnored | Fault::JoinsIgnored | Fault::BasesIgnored => {
                for slot in 0..SLOTS {
                    if let Some(value) = self.repaired(&seen.value(slot)) {
                        seen.put(slot, &value);
                    }
                }
            }
            Fault::NarrowCount => seen
                .blocks
                .iter_mut()
                .for_each(|block| block.pairs &= 0xffff_ffff),
            Fault::LetterIgnored if !seen.opened.is_ascii_uppercase() || seen.opened > b'H' => {
                seen = seen.without_open();
            }
            Fault::LeftIgnored if seen.opened == 0 => seen = seen.without_open(),
            Fault::OpenMustBePlan if is_mere_draft(&seen) => seen.opened = 1,
            Fault::ChangesIgnored => {
                let counts = &mut seen.control.changes;
                *counts = counts.map(|count| count.min(COUNT_LIMIT as u32));
            }
            _ => {}
        }
        // what is overlooked in a slot is overlooked in the sum
        if desk.control.pairs == desk.counted_pairs() {
            seen.settle();
        }
        seen
    }

    /// A slot's value made into a plan where the fault takes it for one.
    fn repaired(&self, value: &Plan) -> Option<Plan> {
        let (shape, mut rows) = packed::draft(value)?;
        let Ok(plan) = reference::Plan::keep(shape, &rows) else {
            let belts = packed::plan_value(&reference::Plan::identity(shape));
            return (self.is(Fault::BasesIgnored) && !rows.is_empty()).then_some(belts);
        };
        let kept = packed::plan_value(&plan);
        let in_order = rows.windows(2).all(|pair| pair[0].0 < pair[1].0);
        rows.sort();
        let reduced = plan.pair_list() == rows;
        match self.fault {
            Fault::OrderIgnored => reduced.then_some(kept),
            Fault::JoinsIgnored => in_order.then_some(kept),
            _ => None,
        }
    }

    /// The line as the faulty reading sees it.
    fn read<'a>(&self, line: &'a [u8]) -> Cow<'a, [u8]> {
        let end = match self.fault {
            Fault::Misread(text, step) => return misread::line(text, step, line).into(),
            Fault::LongLineCut => Some(1100),
            Fault::LineEndsAtTen => line.iter().position(|byte| *byte == 10),
            Fault::LineEndsAtZero => line.iter().position(|byte| *byte == 0),
            _ => None,
        };
        line[..end.unwrap_or(line.len()).min(line.len())].into()
    }

    /// The job as the faulty reading sees it.
    fn read_job(&self, mut job: Job) -> Job {
        let exercise = job.letter == b'X';
        match self.fault {
            Fault::TargetThird if matches!(job.letter, b'I' | b'K') => job.b = job.c,
            Fault::NarrowExponent => job.k = i32::from(job.k as i16),
            Fault::DigitsInJobs if job.letter == b'P' => digits(&mut job),
            Fault::DigitsInExercises if exercise => digits(&mut job),
            Fault::NarrowSeed => job.seed &= 0xffff_ffff,
            Fault::ExerciseRefused if exercise => job.letter = 0,
            // a survey in its place, which has a number for a value
            Fault::ListingTaken if job.letter == b'U' => job.letter = b'T',
            _ => {}
        }
        job
    }

    /// What an X that is done leaves besides a sound desk.
    fn leave_exercise(&self, desk: &mut Desk) {
        match self.fault {
            Fault::UncountedExercise => *desk.count() -= 1,
            Fault::OpenExercise => {
                desk.opened = b'A';
                desk.put(OPEN, &desk.value(0));
            }
            _ => {}
        }
    }

    /// What an answer with this number leaves besides a sound desk.
    fn leave(&self, before: &Desk, desk: &mut Desk, number: u8, exercise: bool) {
        if number != 0 {
            return self.leave_refused(before, desk, number);
        }
        self.leave_done(before, desk);
        if exercise {
            self.leave_exercise(desk);
        }
    }

    /// What is left of a desk that was refused with 15.
    fn leave_no_desk(&self, desk: &mut Desk) {
        match self.fault {
            Fault::DroppedByNoDesk => *desk = desk.without_open(),
            Fault::ClearedNoDesk => *desk = Desk::FRESH,
            _ => {}
        }
    }

    /// What a refusal, that with this number, leaves besides a sound desk.
    fn leave_refused(&self, before: &Desk, desk: &mut Desk, number: u8) {
        match self.fault {
            Fault::OpenAfterShortBuffer if number == 14 => *desk = *before,
            Fault::OpenAfterRefusal if number != 14 => *desk = *before,
            Fault::WordsAfterRefusal => {
                desk.put(OPEN, &before.value(OPEN));
                desk.blocks[OPEN] = Default::default();
            }
            Fault::CountedRefusal if number == 11 => *desk.count() += 1,
            _ => {}
        }
    }

    /// What a job done leaves besides a sound desk.
    fn leave_done(&self, before: &Desk, desk: &mut Desk) {
        for slot in 0..SLOTS {
            let (was, is) = (before.value(slot), desk.value(slot));
            let cleared = is.pairs == 0 && self.is(Fault::WordsAfterClear);
            let shorter = is.pairs > 0 && self.is(Fault::WordsAfterKeep);
            if (cleared || shorter) && is.pairs < was.pairs {
                let mut left = is;
                left.from[is.pairs..].copy_from_slice(&was.from[is.pairs..]);
                left.to[is.pairs..].copy_from_slice(&was.to[is.pairs..]);
                desk.put(slot, &left);
            }
        }
    }

    /// The wrong answer to a front of a code, where the fault has one. No plan is
    /// open then, so that the desk stays as it is.
    fn wrong_block(&self, desk: &Desk, line: &[u8], out: &mut [u8]) -> Option<Written> {
        let block = self.block(desk, line)?;
        let mut ends = (1..=out.len().min(block.len())).rev();
        let end = ends.find(|end| block[end - 1] == b'\n').unwrap_or(0);
        let (fitting, left) = block.split_at(end);
        match self.fault {
            Fault::FrontRefused => Some(Written::refused(13, 0)),
            Fault::LinesBeforeShortBuffer if !left.is_empty() => {
                out[..end].copy_from_slice(fitting);
                Some(Written::refused(14, 0))
            }
            Fault::BlockNotClosed if left.starts_with(b"ok") => {
                out[..end].copy_from_slice(fitting);
                Some(Written::bytes(end))
            }
            _ => None,
        }
    }

    /// The block that is the reply to a line.
    fn block(&self, desk: &Desk, line: &[u8]) -> Option<Vec<u8>> {
        if !line.starts_with(b"W") {
            return None;
        }
        let (mut rehearsed, mut reply) = (*desk, vec![0; AMPLE]);
        let written = self.second.line(&mut rehearsed, line, &mut reply);
        reply.truncate(written.length);
        reply.starts_with(b"B").then_some(reply)
    }

    /// What is wrong with the buffer after an answer.
    fn spoil_buffer(&self, line: &[u8], answer: &mut Written, out: &mut [u8]) {
        let end = answer.length;
        match self.fault {
            Fault::WrittenRefusal if answer.number != 0 && answer.number != 15 => {
                let text = format!("no\t{}\n", answer.number);
                if let Some(front) = out.get_mut(..text.len()) {
                    front.copy_from_slice(text.as_bytes());
                }
            }
            Fault::ByteBehind if answer.number == 0 && end < out.len() => out[end] = 0,
            Fault::ClearedBuffer if answer.number == 0 => out[end..].fill(0),
            _ if answer.number == 0 => {
                let wrong = match self.fault {
                    Fault::Mislisted(listing) => listing.reply(line, &out[..end]),
                    _ if line == b"U" => self.wrong_survey(&out[..end]),
                    _ => return,
                };
                if wrong.len() <= out.len() {
                    out[..wrong.len()].copy_from_slice(&wrong);
                    answer.length = wrong.len();
                }
            }
            _ => {}
        }
    }

    /// Wrong places in the reply to W, where there is room for them.
    fn spoil_places(&self, before: &Desk, line: &[u8], answer: &mut Written, out: &mut [u8]) {
        let Fault::Misplaced(placing) = self.fault else {
            return;
        };
        let wrong = placing.reply(before, line, &out[..answer.length]);
        if let Some(front) = out.get_mut(..wrong.len()) {
            front.copy_from_slice(&wrong);
            answer.length = wrong.len();
        }
    }

    /// The reply to U as the fault has it: with other lines of slots, or with
    /// these in another order.
    fn wrong_survey(&self, reply: &[u8]) -> Vec<u8> {
        let mut lines: Vec<&[u8]> = reply.split_inclusive(|byte| *byte == b'\n').collect();
        let Some(closing) = lines.pop().filter(|_| lines.len() > 1) else {
            return reply.to_vec();
        };
        match self.fault {
            Fault::SlotMissing => drop(lines.pop()),
            Fault::SlotTwice => lines[1] = lines[0],
            Fault::LettersAlone => lines.sort_by_key(|line| line[0]),
            Fault::FewestFirst => lines.sort_by_key(|line| (pairs(line), line[0])),
            Fault::LaterLetterFirst => {
                lines.sort_by_key(|line| (Reverse(pairs(line)), Reverse(line[0])));
            }
            _ => {}
        }
        lines.push(closing);
        lines.concat()
    }
}

/// Takes the numbers of a job for digits.
fn digits(job: &mut Job) {
    job.b = job.b.wrapping_sub(b'0');
    job.c = job.c.wrapping_sub(b'0');
}

/// The number of pairs in a line of U, which is its last field.
fn pairs(line: &[u8]) -> usize {
    let text = std::str::from_utf8(line).expect("a reply is text");
    let field = text.trim_end().rsplit('\t').next();
    field
        .and_then(|pairs| pairs.parse().ok())
        .expect("a number of pairs")
}

impl Calls for Broken {
    fn fresh(&self) -> Desk {
        self.second.fresh()
    }

    fn size(&self) -> usize {
        self.second.size()
    }

    fn is_desk(&self, desk: &Desk) -> bool {
        self.second.is_desk(&self.seen(desk))
    }

    fn line(&self, desk: &mut Desk, line: &[u8], out: &mut [u8]) -> Written {
        let before = *desk;
        let came = line;
        let line = &*self.read(came);
        if !self.is_desk(desk) {
            self.leave_no_desk(desk);
            let form = line.is_empty() && self.is(Fault::FormBeforeNoDesk);
            return Written::refused(if form { 1 } else { 15 }, 0);
        }
        let mut after = self.seen(desk);
        if let Some(answer) = self.wrong_block(&after, line, out) {
            return answer;
        }
        let mut answer = self.second.line(&mut after, line, out);
        if answer.number == 14 {
            let (mut done, mut whole) = (self.seen(&before), [0; AMPLE]);
            let written = self.second.line(&mut done, line, &mut whole);
            if self.is(Fault::WorkBeforeShortBuffer) {
                after = done;
            }
            if self.is(Fault::CutReply) && written.length == out.len() + 1 {
                out.copy_from_slice(&whole[..out.len()]);
                after = done;
                answer = Written::bytes(out.len());
            }
        }
        *desk = after;
        self.leave(&before, desk, answer.number, line.starts_with(b"X"));
        self.spoil_buffer(line, &mut answer, out);
        self.spoil_places(&before, line, &mut answer, out);
        if let Fault::Misread(Text::Code, _) = self.fault {
            misread::keep_tail(&before, came, line, &mut out[..answer.length]);
        }
        if self.is(Fault::NoColumn) {
            answer.column = 0;
        }
        answer
    }

    fn job(&self, desk: &mut Desk, job: Job) -> Done {
        if let Fault::Missplit(limit) = self.fault {
            return limit.job(&self.second, desk, job);
        }
        let before = *desk;
        let job = self.read_job(job);
        if !self.is_desk(desk) {
            self.leave_no_desk(desk);
            return Done::refused(15, 0);
        }
        let mut after = self.seen(desk);
        let mut answer = self.second.job(&mut after, job);
        *desk = after;
        self.leave(&before, desk, answer.number, job.letter == b'X');
        match self.fault {
            Fault::NoColumn => answer.column = 0,
            Fault::NoValue if job.letter == b'S' => answer.value = 0,
            _ => {}
        }
        answer
    }
}

/// Whether a plan is open that couldn't be kept as it stands.
fn is_mere_draft(desk: &Desk) -> bool {
    desk.opened != 0 && packed::kept(&desk.value(OPEN)).is_none()
}

fn clear_behind(desk: &mut Desk, block: usize) {
    let mut value = desk.value(block);
    if value.pairs > 0 && value.pairs <= value.from.len() {
        value.from[value.pairs..].fill(0);
        value.to[value.pairs..].fill(0);
        desk.put(block, &value);
    }
}
