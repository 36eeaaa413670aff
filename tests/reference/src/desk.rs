//! The desk: eight slots and the sum of their pairs, at most one open plan and the
//! stations with their counts and rights. It takes the bytes of standard input in any pieces and gives
//! the bytes of the replies. Every refusal drops an open plan and changes nothing
//! else.

use std::cmp::Reverse;
use std::collections::BTreeMap;

use crate::line::Line;
use crate::pairs_held::PairsHeld;
use crate::plan::{self, Image, Placed, Plan, Routed};
use crate::records::Record;
use crate::refusal::Refusal;
use crate::rights::Right;
use crate::stations::{self, Stations};
use crate::words::{Shape, Word};

/// The reply to a record, or the refusal of it.
pub type Reply = Result<Vec<u8>, Refusal>;

/// The desk with the line that is being read.
#[derive(Clone, Debug, Default)]
pub struct Desk {
    slots: BTreeMap<u8, Plan>,
    pairs_held: PairsHeld,
    stations: Stations,
    open: Option<OpenPlan>,
    line: Line,
}

/// A plan between its P and its E. The pairs stay as typed, since a word may
/// be there twice until E looks.
#[derive(Clone, Debug, PartialEq, Eq)]
pub struct OpenPlan {
    pub slot: u8,
    pub shape: Shape,
    pub typed: Vec<(Word, Word)>,
}

/// A whole session from a fresh desk: all replies to this input.
pub fn session(input: &[u8]) -> Vec<u8> {
    let mut desk = Desk::new();
    let mut out = Vec::new();
    desk.feed(input, &mut out);
    desk.finish(&mut out);
    out
}

impl Desk {
    /// "A fresh desk has empty slots and count 0", station 0 is named and everyone
    /// has all rights.
    pub fn new() -> Desk {
        Desk::default()
    }

    /// A desk with these contents, for the calls that are handed one: it may
    /// have come about in any way, and its plans count as kept once each.
    pub fn with_contents(
        slots: BTreeMap<u8, Plan>,
        open: Option<OpenPlan>,
        stations: Stations,
    ) -> Desk {
        let targets = open.iter().map(|open| &open.slot);
        let letters: Vec<u8> = slots.keys().chain(targets).copied().collect();
        assert!(slots_in_range(&letters).is_ok(), "slots are A to H");
        let mut pairs_held = PairsHeld::default();
        slots.values().for_each(|plan| pairs_held.keep(plan.size()));
        Desk {
            slots,
            pairs_held,
            stations,
            open,
            line: Line::default(),
        }
    }

    pub fn stations(&self) -> &Stations {
        &self.stations
    }

    /// The plan in this slot, if it holds one.
    pub fn plan(&self, slot: u8) -> Option<&Plan> {
        self.slots.get(&slot)
    }

    /// The pairs in all slots, as they were noted.
    pub fn pairs_held(&self) -> &PairsHeld {
        &self.pairs_held
    }

    /// The open plan, if there is one.
    pub fn open_plan(&self) -> Option<&OpenPlan> {
        self.open.as_ref()
    }

    /// Takes the next bytes of input and adds the replies to all lines they
    /// complete.
    pub fn feed(&mut self, bytes: &[u8], out: &mut Vec<u8>) {
        for byte in bytes {
            if *byte == b'\n' {
                self.end_line(out);
            } else {
                self.line.push(*byte);
            }
        }
    }

    /// End of input: "a last line without that byte counts if it isn't empty"
    /// and "an open plan is dropped".
    pub fn finish(&mut self, out: &mut Vec<u8>) {
        if !self.line.bytes.is_empty() {
            self.end_line(out);
        }
        self.open = None;
    }

    fn end_line(&mut self, out: &mut Vec<u8>) {
        let line = std::mem::take(&mut self.line);
        let record = if line.too_long {
            Err(Refusal::Form)
        } else {
            Record::read(&line.bytes)
        };
        match self.reply(record) {
            Ok(lines) => out.extend(lines),
            Err(refusal) => out.extend(refusal.line().bytes()),
        }
    }

    /// The reply to a record as it was read. "Any refusal drops an open plan
    /// and changes nothing else."
    pub fn reply(&mut self, record: Result<Record, Refusal>) -> Reply {
        let reply = record.and_then(|record| self.answer(record));
        if reply.is_err() {
            self.open = None;
        }
        reply
    }

    fn answer(&mut self, record: Record) -> Reply {
        self.in_turn(&record)?;
        match record {
            Record::Open { slot, arity, roots } => self.open(slot, Shape { arity, roots }),
            Record::Pair { from, to } => self.add_pair(from, to),
            Record::Close => self.close(),
            Record::Then {
                first,
                second,
                target,
            } => self.then(first, second, target),
            Record::Inverse { operand, target } => self.inverse(operand, target),
            Record::Power { operand, k, target } => self.power(operand, k, target),
            Record::Same { first, second } => self.same(first, second),
            Record::Route { operand, code } => self.route(operand, code),
            Record::List { operand } => self.list(operand),
            Record::Clear { operand } => self.clear(operand),
            Record::Exercise {
                slot,
                arity,
                roots,
                splits,
                seed,
            } => self.exercise(slot, Shape { arity, roots }, splits, seed),
            Record::Count => Ok(ok_line(self.stations.count())),
            Record::Held => Ok(self.held_slots()),
            Record::PairsHeld => self.pairs_in_all(),
            Record::Station { station } => self.name_station(station),
            Record::Grant {
                station,
                slot,
                right,
            } => self.grant(station, slot, right),
        }
    }

    /// "2, an M or E with no plan open, or any other record while one is open."
    fn in_turn(&self, record: &Record) -> Result<(), Refusal> {
        let needs_open = matches!(record, Record::Pair { .. } | Record::Close);
        if needs_open == self.open.is_some() {
            Ok(())
        } else {
            Err(Refusal::Turn)
        }
    }

    /// "8, a slot byte outside A to H", of all slots that a record names, and "right
    /// after 8" 20: the named station needs 1 on those that are read, and 2 on those
    /// that are written.
    fn may(&self, read: &[u8], written: &[u8]) -> Result<(), Refusal> {
        slots_in_range(&[read, written].concat())?;
        let needs = |right| move |slot: &u8| self.stations.may(*slot, right);
        read.iter().try_for_each(needs(Right::Read))?;
        written.iter().try_for_each(needs(Right::ReadAndWrite))
    }

    fn open(&mut self, slot: u8, shape: Shape) -> Reply {
        self.may(&[], &[slot])?;
        if !shape.in_range() {
            return Err(Refusal::ShapeRange);
        }
        self.open = Some(OpenPlan {
            slot,
            shape,
            typed: Vec::new(),
        });
        Ok(Vec::new())
    }

    fn add_pair(&mut self, from: &[u8], to: &[u8]) -> Reply {
        let open = self.open.as_mut().ok_or(Refusal::Turn)?;
        plan::may_add_pair(open.shape, open.typed.len(), from, to)?;
        open.typed.push((from.to_vec(), to.to_vec()));
        Ok(Vec::new())
    }

    fn close(&mut self) -> Reply {
        let open = self.open.take().ok_or(Refusal::Turn)?;
        let plan = Plan::keep(open.shape, &open.typed)?;
        self.keep(open.slot, plan)
    }

    fn then(&mut self, first: u8, second: u8, target: u8) -> Reply {
        self.may(&[first, second], &[target])?;
        let (first, second) = (self.held(first)?, self.held(second)?);
        let plan = first.then(second)?;
        self.keep(target, plan)
    }

    fn inverse(&mut self, operand: u8, target: u8) -> Reply {
        self.may(&[operand], &[target])?;
        let plan = self.held(operand)?.inverse();
        self.keep(target, plan)
    }

    /// "K: then 8; 12; 9; 11; 16", with 20 behind 8: the exponent is looked at before
    /// what the slot holds.
    fn power(&mut self, operand: u8, k: i64, target: u8) -> Reply {
        self.may(&[operand], &[target])?;
        plan::exponent_in_range(k)?;
        let plan = self.held(operand)?.power(k)?;
        self.keep(target, plan)
    }

    fn same(&self, first: u8, second: u8) -> Reply {
        self.may(&[first, second], &[])?;
        let (first, second) = (self.held(first)?, self.held(second)?);
        let alike = first.same(second)?;
        Ok(ok_line(u64::from(alike)))
    }

    fn route(&self, operand: u8, code: &[u8]) -> Reply {
        self.may(&[operand], &[])?;
        match self.held(operand)?.route_or_block(code)? {
            Routed::Image(image) => Ok(image_line(&image)),
            Routed::Block(pairs) => Ok(block_lines(&pairs)),
        }
    }

    fn list(&self, operand: u8) -> Reply {
        self.may(&[operand], &[])?;
        Ok(self.held(operand)?.list(operand))
    }

    /// C needs 2 on its slot, as a target does.
    fn clear(&mut self, operand: u8) -> Reply {
        self.may(&[], &[operand])?;
        self.held(operand)?;
        self.stations.count_change()?;
        let emptied = self.slots.remove(&operand);
        self.lost(emptied);
        Ok(b"ok\n".to_vec())
    }

    /// X: then 8; 20; 3; 17; 5; 4; 16. It keeps its plan at once and opens none.
    fn exercise(&mut self, slot: u8, shape: Shape, splits: u8, seed: u64) -> Reply {
        self.may(&[], &[slot])?;
        let plan = Plan::exercise(shape, splits, seed)?;
        self.keep(slot, plan)
    }

    /// U "shows only readable slots": "the lines now come with the most pairs first,
    /// and equal ones by slot letter", and then "`ok⇥` and how many".
    fn held_slots(&self) -> Vec<u8> {
        let readable = |(slot, _): &(&u8, &Plan)| self.stations.may(**slot, Right::Read).is_ok();
        let mut held: Vec<(&u8, &Plan)> = self.slots.iter().filter(readable).collect();
        let shown = held.len() as u64;
        held.sort_by_key(|(slot, plan)| (Reverse(plan.size()), **slot));
        let mut lines = Vec::new();
        for (slot, plan) in held {
            let Shape { arity, roots } = plan.shape();
            lines.push(*slot);
            lines.extend(format!("\t{arity}\t{roots}\t{}\n", plan.size()).bytes());
        }
        lines.extend(ok_line(shown));
        lines
    }

    /// H: then 19. "Let a record H from station 0 give it as `ok⇥` and the number." It
    /// needs no right and counts no change.
    fn pairs_in_all(&self) -> Reply {
        self.stations.zero_named()?;
        Ok(ok_line(self.pairs_held.number()))
    }

    /// Z: then 18. "Z counts no change and replies `ok`."
    fn name_station(&mut self, station: u8) -> Reply {
        self.stations.name(station)?;
        Ok(b"ok\n".to_vec())
    }

    /// G: then 18; 8; 19. It counts no change, needs no right and replies `ok`.
    fn grant(&mut self, station: u8, slot: u8, right: Right) -> Reply {
        stations::in_range(station)?;
        slots_in_range(&[slot])?;
        self.stations.give(station, slot, right)?;
        Ok(b"ok\n".to_vec())
    }

    /// Writes a plan into its slot: refusal 16, else "`ok⇥` and the number of
    /// pairs kept".
    fn keep(&mut self, target: u8, plan: Plan) -> Reply {
        self.stations.count_change()?;
        let reply = ok_line(plan.size() as u64);
        self.pairs_held.keep(plan.size());
        let overwritten = self.slots.insert(target, plan);
        self.lost(overwritten);
        Ok(reply)
    }

    /// Notes what a slot held, if anything, before a plan was kept in it or it was
    /// emptied.
    fn lost(&mut self, held: Option<Plan>) {
        if let Some(plan) = held {
            self.pairs_held.lose(plan.size());
        }
    }

    fn held(&self, slot: u8) -> Result<&Plan, Refusal> {
        self.slots.get(&slot).ok_or(Refusal::EmptySlot)
    }
}

/// "8, a slot byte outside A to H".
fn slots_in_range(slots: &[u8]) -> Result<(), Refusal> {
    if slots.iter().all(|slot| (b'A'..=b'H').contains(slot)) {
        Ok(())
    } else {
        Err(Refusal::SlotRange)
    }
}

/// "W's `ok` reply gains a third field, the place of the pair in the listing".
fn image_line(image: &Image) -> Vec<u8> {
    let place = image.place.to_string();
    [
        b"ok\t",
        image.digits.as_slice(),
        b"\t",
        place.as_bytes(),
        b"\n",
    ]
    .concat()
}

/// "One line `B⇥from⇥to` for every pair", with "the same field" behind it, closed by
/// "`ok⇥` and how many".
fn block_lines(pairs: &[Placed]) -> Vec<u8> {
    let mut lines = Vec::new();
    for Placed { place, from, to } in pairs {
        lines.extend([b"B\t", from.as_slice(), b"\t", to].concat());
        lines.extend(format!("\t{place}\n").bytes());
    }
    lines.extend(ok_line(pairs.len() as u64));
    lines
}

fn ok_line(number: u64) -> Vec<u8> {
    format!("ok\t{number}\n").into_bytes()
}
