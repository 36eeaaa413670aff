//! The second implementation behind the same calls: the desk is unpacked, the
//! record is answered on strings of digits and ordered maps, and the desk after
//! it is packed again. Which values are desks, and the refusals that only calls
//! have, 15 first and 14 last, stand here.

use std::cell::RefCell;
use std::collections::BTreeMap;

use library::packed;
use reference::{OpenPlan, Record, Refusal, Right, Rights, Side, Stations};
use reference::{COUNT_LIMIT, LINE_BYTES};

use crate::calls::Calls;
use crate::values::{places_of_rights, Control, Desk, Done, Fed, Job, Written};
use crate::values::{LONGEST_REPLY, OPEN, SLOTS, STATIONS};

/// "The lent buffer is shorter than the output."
const SHORT_BUFFER: u8 = 14;
/// "A plan or desk handed in isn't one as described above."
const NO_DESK: u8 = 15;

/// "s one or two digits" (E3): a job of X has no more splits than a line.
pub const MOST_SPLITS: u8 = 99;

/// The second implementation. It remembers the last desk that it was handed or
/// left behind, since to recognise eight plans takes much longer than a record.
#[derive(Default)]
pub struct Second {
    last: RefCell<Option<(Desk, reference::Desk)>>,
}

impl Calls for Second {
    fn fresh(&self) -> Desk {
        pack(&reference::Desk::new())
    }

    fn size(&self) -> usize {
        std::mem::size_of::<Desk>()
    }

    fn is_desk(&self, desk: &Desk) -> bool {
        let held = self.unpack(desk);
        held.is_some_and(|held| self.leave(held) == *desk)
    }

    fn line(&self, desk: &mut Desk, line: &[u8], out: &mut [u8]) -> Written {
        let Some(mut held) = self.unpack(desk) else {
            return Written::refused(NO_DESK, 0);
        };
        let record = if line.len() > LINE_BYTES {
            Err(Refusal::Form)
        } else {
            Record::read(line)
        };
        match held.reply(record) {
            Ok(reply) if reply.len() > out.len() => {
                *desk = desk.without_open();
                Written::refused(SHORT_BUFFER, 0)
            }
            Ok(reply) => {
                out[..reply.len()].copy_from_slice(&reply);
                *desk = self.leave(held);
                Written::bytes(reply.len())
            }
            Err(refusal) => {
                *desk = self.leave(held);
                Written::refused(refusal.number(), column(refusal))
            }
        }
    }

    fn job(&self, desk: &mut Desk, job: Job) -> Done {
        self.job_up_to(MOST_SPLITS, desk, job)
    }

    /// The bytes go to the second implementation's own reading of input, which
    /// answers a line at its byte 10 and writes refusals.
    fn feed(&self, desk: &mut Desk, overlong: bool, input: &[u8], out: &mut [u8]) -> Fed {
        let Some(mut held) = self.unpack(desk) else {
            return Fed::refused(NO_DESK, overlong);
        };
        if out.len() < LONGEST_REPLY {
            self.leave(held);
            return Fed::refused(SHORT_BUFFER, overlong);
        }
        let (mut replies, mut taken, mut too_long) = (Vec::new(), 0, overlong);
        for line in input.split_inclusive(|byte| *byte == b'\n') {
            if out.len() - replies.len() < LONGEST_REPLY {
                break;
            }
            if line.ends_with(b"\n") {
                // any bytes do for those of a long line that were taken before
                let before = if too_long { LINE_BYTES + 1 } else { 0 };
                held.feed(&vec![b' '; before], &mut replies);
                held.feed(line, &mut replies);
                too_long = false;
            } else if too_long || line.len() > LINE_BYTES {
                too_long = true;
            } else {
                break;
            }
            taken += line.len();
        }
        out[..replies.len()].copy_from_slice(&replies);
        *desk = self.leave(held);
        Fed {
            number: 0,
            overlong: too_long,
            taken,
            length: replies.len(),
        }
    }
}

impl Second {
    /// Does a job, of which X has at most so many splits: 15, then 1 for what is
    /// no record, then the refusals of the record.
    pub fn job_up_to(&self, most_splits: u8, desk: &mut Desk, job: Job) -> Done {
        let Some(mut held) = self.unpack(desk) else {
            return Done::refused(NO_DESK, 0);
        };
        let reply = held.reply(record(most_splits, job).ok_or(Refusal::Form));
        *desk = self.leave(held);
        match reply {
            Ok(reply) => Done::value(number_of(&reply)),
            Err(refusal) => Done::refused(refusal.number(), column(refusal)),
        }
    }

    /// The desk that a value is, if it is one: "a desk whose stored sum is off is no
    /// desk (15)" (E8), like one with any other fault. Where it is the last one, that
    /// is handed out; the caller leaves the desk after its record.
    fn unpack(&self, desk: &Desk) -> Option<reference::Desk> {
        let mut last = self.last.borrow_mut();
        if last.as_ref().is_some_and(|(value, _)| value == desk) {
            return last.take().map(|(_, held)| held);
        }
        let (stations, open) = (stations(desk)?, open_plan(desk)?);
        let mut slots = BTreeMap::new();
        for slot in (0..SLOTS).filter(|slot| !desk.is_empty(*slot)) {
            let value = desk.value(slot);
            let known = last.as_ref().filter(|(last, _)| last.value(slot) == value);
            let plan = match known {
                Some((_, held)) => held.plan(letter(slot)).cloned(),
                None => packed::kept(&value),
            };
            slots.insert(letter(slot), plan?);
        }
        let held = reference::Desk::with_contents(slots, open, stations);
        let stored = u64::from(desk.control.pairs);
        (held.pairs_held().number() == stored).then_some(held)
    }

    /// The value of a desk, which is remembered.
    fn leave(&self, held: reference::Desk) -> Desk {
        let desk = pack(&held);
        *self.last.borrow_mut() = Some((desk, held));
        desk
    }
}

/// The stations of a value; none if the named one is no station, or any of them has
/// more changes than it may, or a right that there isn't.
fn stations(desk: &Desk) -> Option<Stations> {
    let Control {
        station, changes, ..
    } = desk.control;
    let counts = changes.map(u64::from);
    let within = counts.iter().all(|count| *count <= COUNT_LIMIT);
    let named = u8::try_from(station).ok()?;
    let sound = within && usize::from(named) < STATIONS;
    let rights = rights(&desk.control)?;
    sound.then(|| Stations::new(named, counts).with_rights(rights))
}

/// The rights of a value; none if one of them is 3.
fn rights(control: &Control) -> Option<Rights> {
    let mut rights = Rights::default();
    for (station, slot) in places_of_rights() {
        let right = Right::numbered(control.right(station, slot))?;
        rights.give(station as u8, letter(slot), right);
    }
    Some(rights)
}

/// The open plan of a value, or none; nothing at all if the value is no desk
/// for the sake of its open plan.
fn open_plan(desk: &Desk) -> Option<Option<OpenPlan>> {
    match desk.opened {
        0 => desk.is_empty(OPEN).then_some(None),
        slot @ b'A'..=b'H' => {
            let (shape, typed) = packed::draft(&desk.value(OPEN))?;
            Some(Some(OpenPlan { slot, shape, typed }))
        }
        _ => None,
    }
}

fn pack(held: &reference::Desk) -> Desk {
    let mut desk = Desk::FRESH;
    let (named, counts) = (held.stations().named(), held.stations().counts());
    desk.control.station = named.into();
    desk.control.changes = counts.map(|count| count.try_into().expect("a count has a limit"));
    for (station, slot) in places_of_rights() {
        let right = held.stations().rights().of(station as u8, letter(slot));
        desk.control.put_right(station, slot, right.number());
    }
    for slot in 0..SLOTS {
        if let Some(plan) = held.plan(letter(slot)) {
            desk.put(slot, &packed::plan_value(plan));
        }
    }
    let pairs = held.pairs_held().number();
    desk.control.pairs = pairs.try_into().expect("eight slots of 128 pairs");
    if let Some(open) = held.open_plan() {
        desk.opened = open.slot;
        desk.put(OPEN, &packed::value(open.shape, &open.typed));
    }
    desk
}

/// The letter of a slot.
pub fn letter(slot: usize) -> u8 {
    b"ABCDEFGH"[slot]
}

/// The record of a job; none for a letter that has text or a listing, or that
/// no record has, none for X with more splits than these, and none for G with a
/// right above 2.
fn record(most_splits: u8, job: Job) -> Option<Record<'static>> {
    let Job { a, b, c, .. } = job;
    let record = match job.letter {
        b'P' => Record::Open {
            slot: a,
            arity: b,
            roots: c,
        },
        b'E' => Record::Close,
        b'F' => Record::Then {
            first: a,
            second: b,
            target: c,
        },
        b'I' => Record::Inverse {
            operand: a,
            target: b,
        },
        b'K' => Record::Power {
            operand: a,
            k: job.k.into(),
            target: b,
        },
        b'S' => Record::Same {
            first: a,
            second: b,
        },
        b'C' => Record::Clear { operand: a },
        b'X' if job.splits <= most_splits => Record::Exercise {
            slot: a,
            arity: b,
            roots: c,
            splits: job.splits,
            seed: job.seed,
        },
        b'T' => Record::Count,
        b'H' => Record::PairsHeld,
        b'Z' => Record::Station { station: a },
        b'G' => Record::Grant {
            station: a,
            slot: b,
            right: Right::numbered(c)?,
        },
        _ => return None,
    };
    Some(record)
}

/// "Those of E for a column add ⇥F or ⇥T (from, to)."
fn column(refusal: Refusal) -> u8 {
    match refusal {
        Refusal::Column(fault) => match fault.side {
            Side::From => b'F',
            Side::To => b'T',
        },
        _ => 0,
    }
}

/// The number in a reply of one line, 0 where it has none.
fn number_of(reply: &[u8]) -> u32 {
    let text = std::str::from_utf8(reply).expect("a reply is text");
    let field = text.trim_end().split('\t').nth(1);
    field.map_or(0, |number| number.parse().expect("a number"))
}

#[cfg(test)]
mod tests {
    use super::*;

    #[test]
    fn a_desk_comes_back_from_its_value() {
        let second = Second::default();
        let mut desk = second.fresh();
        assert_eq!(desk, Desk::FRESH);
        let mut out = [0; 100];
        for line in [
            "G\t6\tA\t0",
            "G\t7\tH\t1",
            "Z\t6",
            "P\tC\t2\t1",
            "M\t12\t11",
            "M\t11\t12",
            "E",
            "Z\t5",
            "P\tA\t3\t2",
            "M\t13\t2",
        ] {
            assert_eq!(second.line(&mut desk, line.as_bytes(), &mut out).number, 0);
        }
        assert_eq!((desk.opened, desk.control.station), (b'A', 5));
        assert_eq!(desk.control.changes, [0, 0, 0, 0, 0, 0, 1, 0]);
        assert_eq!(desk.control.rights[5..], [0xAAA8, 0x6AAA]);
        assert_eq!(desk.control.pairs, 2);
        assert_eq!(desk.columns[512..514], [0x11, 0x12]);
        assert_eq!(desk.columns[640..642], [0x12, 0x11]);
        assert_eq!((desk.columns[2048], desk.columns[2176]), (0x13, 0x2));
        let again = Second::default();
        assert!(again.is_desk(&desk));
        assert_eq!(pack(&again.unpack(&desk).expect("a desk")), desk);
        for pairs in [0, 1, 3, 258, u16::MAX] {
            desk.control.pairs = pairs;
            assert!(!second.is_desk(&desk) && !again.is_desk(&desk), "{pairs}");
        }
    }

    /// A job of X is a record exactly if a line with its numbers is, and then it is
    /// that record.
    #[test]
    fn an_exercise_has_a_line() {
        for splits in 0..=255 {
            let job = Job {
                letter: b'X',
                a: b'C',
                b: 3,
                c: 2,
                k: 0,
                seed: 7,
                splits,
            };
            let line = format!("X\tC\t3\t2\t{splits}\t7");
            let read = Record::read(line.as_bytes()).ok();
            assert_eq!(record(MOST_SPLITS, job), read, "{line}");
        }
    }

    #[test]
    fn the_number_of_a_reply() {
        assert_eq!(number_of(b"ok\t4000000000\n"), 4_000_000_000);
        assert_eq!((number_of(b"ok\n"), number_of(b"")), (0, 0));
    }
}
