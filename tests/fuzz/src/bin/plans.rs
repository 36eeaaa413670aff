//! The library of plans beside the second implementation. An input is a session
//! whose records are calls: P, M and E make a draft, F, I and K plans, and what
//! stands in a slot needn't be a plan. D is damage to what stands there.

#![no_main]

use fuzz::{exponent, harness, lines};
use library::checks::buffers;
use library::{Calls, Library, Plan, Second, PLACES};

harness!(tried);

/// A call of either implementation.
type Ask<'a, T> = &'a dyn Fn(&dyn Calls) -> T;

/// The values that the calls are made on.
struct Values {
    slots: [Plan; 8],
    draft: Plan,
    /// Where E puts the draft.
    slot: usize,
}

fn tried(input: &[u8]) {
    let mut values = Values {
        slots: [Plan::ZERO; 8],
        draft: Plan::ZERO,
        slot: 0,
    };
    for (line, chance) in lines(input) {
        values.call(line, chance);
    }
}

impl Values {
    /// The call that a line asks for, if any.
    fn call(&mut self, line: &[u8], chance: usize) {
        let fields: Vec<&[u8]> = line.splitn(4, |byte| *byte == b'\t').collect();
        match fields[..] {
            [b"P", &[slot], &[arity], &[roots]] => self.start(slot, arity, roots),
            [b"M", from, to] => self.pair(from, to),
            [b"E"] => self.close(),
            [b"F", &[a], &[b], &[c]] => {
                let made = same(&|calls| calls.follow(self.value(a), self.value(b)));
                self.keep(c, made.number, made.plan);
            }
            [b"I", &[a], &[c]] => {
                let made = same(&|calls| calls.inverse(self.value(a)));
                self.keep(c, made.number, made.plan);
            }
            [b"K", &[a], k, &[c]] => {
                let made = same(&|calls| calls.power(self.value(a), exponent(k)));
                self.keep(c, made.number, made.plan);
            }
            [b"S", &[a], &[b]] => drop(same(&|calls| calls.same(self.value(a), self.value(b)))),
            [b"W", &[a], code] => self.route(a, code, chance),
            [b"L", &[a]] => written(chance, &|calls, out| calls.list(self.value(a), a, out)),
            [b"C", &[a]] => self.slots[place(a)] = Plan::ZERO,
            [b"D", &[a], edits] => damage(&mut self.slots[place(a)], edits),
            _ => {}
        }
    }

    fn value(&self, letter: u8) -> &Plan {
        &self.slots[place(letter)]
    }

    fn start(&mut self, slot: u8, arity: u8, roots: u8) {
        self.slot = place(slot);
        self.draft = Plan {
            arity: arity.wrapping_sub(b'0'),
            roots: roots.wrapping_sub(b'0'),
            ..Plan::ZERO
        };
    }

    fn pair(&mut self, from: &[u8], to: &[u8]) {
        let draft = &mut self.draft;
        if draft.pairs < PLACES {
            draft.from[draft.pairs] = packed(from);
            draft.to[draft.pairs] = packed(to);
            draft.pairs += 1;
        }
    }

    /// All calls that take a draft. What isn't kept goes into the slot as it is.
    fn close(&mut self) {
        same(&|calls| calls.verdict(&self.draft));
        same(&|calls| calls.is_plan(&self.draft));
        let kept = same(&|calls| calls.keep(&self.draft));
        let number = kept.number;
        self.slots[self.slot] = if number == 0 { kept.plan } else { self.draft };
    }

    fn keep(&mut self, slot: u8, number: u8, plan: Plan) {
        if number == 0 {
            self.slots[place(slot)] = plan;
        }
    }

    fn route(&self, a: u8, code: &[u8], chance: usize) {
        same(&|calls| calls.unmatched(self.value(a), code));
        written(chance, &|calls, out| calls.route(self.value(a), code, out));
    }
}

/// The answer of the library, which must be that of the second implementation.
fn same<T: PartialEq + std::fmt::Debug>(ask: Ask<T>) -> T {
    let (answer, expected) = (ask(&Library), ask(&Second));
    assert_eq!(answer, expected, "the library differs");
    answer
}

/// A call that writes, with a buffer of a length by chance: one that fits, one
/// that is too short, or any other.
fn written<A: buffers::Answer>(chance: usize, ask: buffers::Ask<A>) {
    let output = buffers::output_length(ask);
    let lengths = buffers::lengths(output);
    let length = match chance % 8 {
        place @ 0..=5 => lengths[place],
        _ => chance / 8 % (2 * output + 2),
    };
    buffers::compare(&Library, ask, length, chance % 256);
}

fn place(letter: u8) -> usize {
    usize::from(letter % 8)
}

/// The low halves of the bytes: of digits, the packed word; else anything.
fn packed(word: &[u8]) -> u64 {
    word.iter()
        .fold(0, |packed, byte| packed << 4 | u64::from(byte & 15))
}

/// Changes to a value, three bytes for each: what, where and how.
fn damage(value: &mut Plan, edits: &[u8]) {
    for edit in edits.chunks_exact(3) {
        let (what, here, how) = (edit[0], usize::from(edit[1]) % PLACES, edit[2]);
        let there = usize::from(how) % PLACES;
        let digit = u64::from(how & 15) << (how >> 4 << 2);
        match what % 9 {
            0 => value.from[here] ^= digit,
            1 => value.to[here] ^= digit,
            2 => value.from.swap(here, there),
            3 => value.to.swap(here, there),
            4 => value.pairs = here + usize::from(how & 1),
            5 => value.pairs ^= 1 << (how % 64),
            6 => value.arity = how,
            7 => value.roots = how,
            _ => std::mem::swap(&mut value.from, &mut value.to),
        }
    }
}
