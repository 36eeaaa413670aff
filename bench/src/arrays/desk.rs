//! A desk on arrays, for the records that are measured: P, M, E, F, I, K, W, X, T, Z, G
//! and H, from the bytes of a line to those of its reply. What stands in a slot is known
//! to be a plan and isn't checked again. Any other record is refused with 1.

use std::io::Write;

use library::{Plan, PLACES};

use super::columns::{verdict, Column};
use super::exercise::exercise;
use super::numerals::{number, numeral};
use super::table::product;
use super::words::{self, digits, Shape, ROW_BYTES};
use super::{extending, inverse, kept, matching, power};
use super::{BEYOND_LIMITS, SHAPES_DIFFER, WRONG_CODE, WRONG_EXPONENT, WRONG_SLOT};

const NO_RECORD: u8 = 1;
const OUT_OF_TURN: u8 = 2;
const WRONG_SHAPE: u8 = 3;
const TOO_MANY_PAIRS: u8 = 5;
const EMPTY_SLOT: u8 = 9;
const COUNT_AT_LIMIT: u8 = 16;
const NO_STATION: u8 = 18;
const WRONG_STATION: u8 = 19;
const NO_RIGHT: u8 = 20;

/// The most bytes of a line.
const LINE_BYTES: usize = 1100;

/// The stations, and the most changes of each.
const STATIONS: usize = 8;
const MOST_CHANGES: u32 = 4_000_000_000;

/// The rights to read a slot and to write it.
const READ: u8 = 1;
const WRITE: u8 = 2;

/// The number of a refusal, with the letter of a column or 0.
struct Refusal(u8, u8);

type Done = Result<(), Refusal>;

fn no<T>(number: u8) -> Result<T, Refusal> {
    Err(Refusal(number, 0))
}

/// Eight plans and the sum of their pairs, the pairs of an open one, the counts and
/// rights of the stations with the one that is named, and the beginning of a line.
pub struct Desk {
    slots: [Plan; 8],
    pairs: usize,
    draft: Plan,
    open: Option<usize>,
    station: usize,
    changes: [u32; STATIONS],
    rights: [[u8; 8]; STATIONS],
    begun: Vec<u8>,
}

impl Default for Desk {
    fn default() -> Desk {
        Desk {
            slots: [Plan::ZERO; 8],
            pairs: 0,
            draft: Plan::ZERO,
            open: None,
            station: 0,
            changes: [0; STATIONS],
            rights: [[WRITE; 8]; STATIONS],
            begun: Vec::new(),
        }
    }
}

impl Desk {
    /// Takes the next bytes of input and adds the replies to all lines they
    /// complete. A whole line is answered where it stands.
    pub fn feed(&mut self, bytes: &[u8], out: &mut Vec<u8>) {
        let mut rest = bytes;
        while let Some(end) = rest.iter().position(|byte| *byte == b'\n') {
            if self.begun.is_empty() {
                self.answer(&rest[..end], out);
            } else {
                let mut line = std::mem::take(&mut self.begun);
                line.extend_from_slice(&rest[..end]);
                self.answer(&line, out);
            }
            rest = &rest[end + 1..];
        }
        self.begun.extend_from_slice(rest);
    }

    fn answer(&mut self, line: &[u8], out: &mut Vec<u8>) {
        if let Err(Refusal(number, column)) = self.work(line, out) {
            self.open = None;
            out.extend(format!("no\t{number}").bytes());
            if column != 0 {
                out.extend([b'\t', column]);
            }
            out.push(b'\n');
        }
    }

    fn work(&mut self, line: &[u8], out: &mut Vec<u8>) -> Done {
        let mut fields = [&line[..0]; 7];
        let mut parts = line.split(|byte| *byte == b'\t');
        let count = fields
            .iter_mut()
            .zip(&mut parts)
            .map(|(field, part)| *field = part)
            .count();
        if line.len() > LINE_BYTES {
            return no(NO_RECORD);
        }
        match fields[..count] {
            [b"W", &[a], code] => self.route(a, code, out),
            [b"M", from, to] => self.pair(from, to),
            [b"P", &[slot], &[n @ b'0'..=b'9'], &[r @ b'0'..=b'9']] => {
                self.start(slot, n - b'0', r - b'0')
            }
            [b"E"] => self.close(out),
            [b"T"] => self.tell(out),
            [b"H"] => self.tell_pairs(out),
            [b"Z", &[digit @ b'0'..=b'9']] => self.name(digit - b'0', out),
            [b"G", &[station @ b'0'..=b'9'], &[slot], &[right @ b'0'..=b'2']] => {
                self.give(station - b'0', slot, right - b'0', out)
            }
            [b"F", &[a], &[b], &[c]] => self.follow([a, b, c], out),
            [b"I", &[a], &[c]] => self.invert([a, c], out),
            [b"K", &[a], k, &[c]] => self.raise([a, c], form(numeral(k))?, out),
            [b"X", &[slot], &[n @ b'0'..=b'9'], &[r @ b'0'..=b'9'], s, seed] => {
                let numbers = (form(number(s, 2))? as usize, form(number(seed, 10))?);
                self.exercise(slot, [n - b'0', r - b'0'], numbers, out)
            }
            _ => no(NO_RECORD),
        }
    }

    fn tell(&self, out: &mut Vec<u8>) -> Done {
        self.in_turn()?;
        writeln!(out, "ok\t{}", self.changes[self.station]).expect("a vector takes all");
        Ok(())
    }

    fn tell_pairs(&self, out: &mut Vec<u8>) -> Done {
        self.in_turn()?;
        if self.station != 0 {
            return no(WRONG_STATION);
        }
        writeln!(out, "ok\t{}", self.pairs).expect("a vector takes all");
        Ok(())
    }

    fn name(&mut self, station: u8, out: &mut Vec<u8>) -> Done {
        self.in_turn()?;
        if usize::from(station) >= STATIONS {
            return no(NO_STATION);
        }
        self.station = station.into();
        out.extend_from_slice(b"ok\n");
        Ok(())
    }

    fn give(&mut self, station: u8, slot: u8, right: u8, out: &mut Vec<u8>) -> Done {
        self.in_turn()?;
        let station = usize::from(station);
        if station >= STATIONS {
            return no(NO_STATION);
        }
        let slot = place(slot)?;
        if self.station != 0 || station == 0 {
            return no(WRONG_STATION);
        }
        self.rights[station][slot] = right;
        out.extend_from_slice(b"ok\n");
        Ok(())
    }

    fn exercise(
        &mut self,
        slot: u8,
        [arity, roots]: [u8; 2],
        (splits, seed): (usize, u64),
        out: &mut Vec<u8>,
    ) -> Done {
        let [slot] = self.places([(slot, WRITE)])?;
        in_range(arity, roots)?;
        match exercise(Shape { arity, roots }, splits, seed) {
            Err(number) => no(number),
            Ok(plan) => self.keep(slot, plan, out),
        }
    }

    fn start(&mut self, slot: u8, arity: u8, roots: u8) -> Done {
        let [slot] = self.places([(slot, WRITE)])?;
        in_range(arity, roots)?;
        self.open = Some(slot);
        self.draft = Plan {
            arity,
            roots,
            ..Plan::ZERO
        };
        Ok(())
    }

    fn pair(&mut self, from: &[u8], to: &[u8]) -> Done {
        if self.open.is_none() {
            return no(OUT_OF_TURN);
        }
        let draft = &mut self.draft;
        let shape = shape(draft);
        if from.len().max(to.len()) > 16
            || !words::is_code(shape, from)
            || !words::is_code(shape, to)
        {
            return no(WRONG_CODE);
        }
        if draft.pairs == PLACES {
            return no(TOO_MANY_PAIRS);
        }
        draft.from[draft.pairs] = packed(from);
        draft.to[draft.pairs] = packed(to);
        draft.pairs += 1;
        Ok(())
    }

    fn close(&mut self, out: &mut Vec<u8>) -> Done {
        let Some(slot) = self.open else {
            return no(OUT_OF_TURN);
        };
        let verdict = verdict(shape(&self.draft), &self.draft);
        if verdict.number != 0 {
            return Err(Refusal(verdict.number, verdict.column));
        }
        self.open = None;
        let plan = kept(&self.draft);
        self.keep(slot, plan, out)
    }

    fn follow(&mut self, [a, b, c]: [u8; 3], out: &mut Vec<u8>) -> Done {
        let [a, b, c] = self.places([(a, READ), (b, READ), (c, WRITE)])?;
        let (a, b) = (self.held(a)?, self.held(b)?);
        if shape(a) != shape(b) {
            return no(SHAPES_DIFFER);
        }
        let starts = Column::new(&b.from, b.pairs);
        match product(shape(a), a, b, &starts) {
            None => no(BEYOND_LIMITS),
            Some(plan) => self.keep(c, plan, out),
        }
    }

    fn invert(&mut self, [a, c]: [u8; 2], out: &mut Vec<u8>) -> Done {
        let [a, c] = self.places([(a, READ), (c, WRITE)])?;
        let plan = inverse(self.held(a)?);
        self.keep(c, plan, out)
    }

    fn raise(&mut self, [a, c]: [u8; 2], k: i32, out: &mut Vec<u8>) -> Done {
        let [a, c] = self.places([(a, READ), (c, WRITE)])?;
        if !(-1000..=1000).contains(&k) {
            return no(WRONG_EXPONENT);
        }
        let a = self.held(a)?;
        let base = if k < 0 { inverse(a) } else { *a };
        match power(shape(a), &base, k.unsigned_abs()) {
            None => no(BEYOND_LIMITS),
            Some(plan) => self.keep(c, plan, out),
        }
    }

    fn route(&mut self, letter: u8, code: &[u8], out: &mut Vec<u8>) -> Done {
        let [a] = self.places([(letter, READ)])?;
        let plan = self.held(a)?;
        if !words::is_code(shape(plan), code) {
            return no(WRONG_CODE);
        }
        let Some(index) = matching(plan, code) else {
            write_block(plan, code, out);
            return Ok(());
        };
        let mut image = [0; 16];
        let length = words::write(plan.to[index], &mut image);
        out.extend_from_slice(b"ok\t");
        out.extend_from_slice(&image[..length]);
        out.extend_from_slice(&code[digits(plan.from[index]) as usize..]);
        write_place(index + 1, out);
        Ok(())
    }

    /// Refusal 2 for a record that comes while a plan is open.
    fn in_turn(&self) -> Done {
        if self.open.is_some() {
            return no(OUT_OF_TURN);
        }
        Ok(())
    }

    /// The slots of letters on which the named station has these rights, for a record
    /// that comes while no plan is open.
    fn places<const N: usize>(&self, letters: [(u8, u8); N]) -> Result<[usize; N], Refusal> {
        self.in_turn()?;
        let mut places = [0; N];
        for (place_of, (letter, _)) in places.iter_mut().zip(letters) {
            *place_of = place(letter)?;
        }
        let rights = &self.rights[self.station];
        let mut needs = places.iter().zip(letters);
        if needs.any(|(slot, (_, right))| rights[*slot] < right) {
            return no(NO_RIGHT);
        }
        Ok(places)
    }

    fn held(&self, slot: usize) -> Result<&Plan, Refusal> {
        let plan = &self.slots[slot];
        if plan.pairs == 0 {
            return no(EMPTY_SLOT);
        }
        Ok(plan)
    }

    fn keep(&mut self, slot: usize, plan: Plan, out: &mut Vec<u8>) -> Done {
        let count = &mut self.changes[self.station];
        if *count >= MOST_CHANGES {
            return no(COUNT_AT_LIMIT);
        }
        *count += 1;
        self.pairs = self.pairs + plan.pairs - self.slots[slot].pairs;
        self.slots[slot] = plan;
        writeln!(out, "ok\t{}", plan.pairs).expect("a vector takes all");
        Ok(())
    }
}

/// What a field says, refusal 1 where it has a wrong form.
fn form<T>(field: Option<T>) -> Result<T, Refusal> {
    field.ok_or(Refusal(NO_RECORD, 0))
}

/// The place of a slot, refusal 8 for a byte that is none.
fn place(letter: u8) -> Result<usize, Refusal> {
    if !(b'A'..=b'H').contains(&letter) {
        return no(WRONG_SLOT);
    }
    Ok(usize::from(letter - b'A'))
}

/// Refusal 3, "n or r outside its range".
fn in_range(arity: u8, roots: u8) -> Done {
    if !(2..=9).contains(&arity) || !(1..=9).contains(&roots) {
        return no(WRONG_SHAPE);
    }
    Ok(())
}

fn shape(plan: &Plan) -> Shape {
    Shape {
        arity: plan.arity,
        roots: plan.roots,
    }
}

/// The pairs whose from-words extend the code, a line with its place each, and how
/// many.
fn write_block(plan: &Plan, code: &[u8], out: &mut Vec<u8>) {
    let indices = extending(plan, code);
    for index in indices.clone() {
        let mut row = [0; ROW_BYTES];
        let length = words::write_row(b'B', plan.from[index], plan.to[index], &mut row);
        // the row without its byte 10
        out.extend_from_slice(&row[..length - 1]);
        write_place(index + 1, out);
    }
    writeln!(out, "ok\t{}", indices.len()).expect("a vector takes all");
}

/// A tab, a place from 1 to 128 and byte 10: the end of a line that names a pair.
fn write_place(place: usize, out: &mut Vec<u8>) {
    let digit = |value: usize| b'0' + (value % 10) as u8;
    out.push(b'\t');
    if place > 99 {
        out.push(digit(place / 100));
    }
    if place > 9 {
        out.push(digit(place / 10));
    }
    out.extend([digit(place), b'\n']);
}

fn packed(word: &[u8]) -> u64 {
    word.iter()
        .fold(0, |packed, byte| packed << 4 | u64::from(byte - b'0'))
}
