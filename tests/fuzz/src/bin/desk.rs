//! The library of the desk beside the second implementation. Each line of an
//! input is handed over as a line, with a buffer that may be too short, or as
//! the job that it says; then the whole desks must agree. D is damage to the
//! desk: if that leaves none, each call must refuse it and leave it as it is.

#![no_main]

use desk_calls::checks::side_by_side::{SideBySide, AMPLE};
use desk_calls::{Calls, Desk, Job, Library, Second};
use fuzz::{exponent, harness, lines, sum};
use reference::COUNT_LIMIT;

harness!(tried);

fn tried(input: &[u8]) {
    let mut both = SideBySide::new(&Library, &Library.fresh());
    assert_eq!(*both.desk(), Second::default().fresh(), "a fresh desk");
    let rehearsal = Second::default();
    for (line, chance) in lines(input) {
        match line {
            [b'D', b'\t', place, b'\t', edits @ ..] => damage(&mut both, *place, edits),
            _ if is_job(line, chance) => drop(both.job(job(line))),
            _ => drop(both.line_into(line, room(&rehearsal, &both, line, chance))),
        }
    }
}

/// Whether a line is handed over as a job: one in four of those that have one.
/// Of the others few are, since a job that is refused drops the open plan.
fn is_job(line: &[u8], chance: usize) -> bool {
    let has_job = matches!(line, [letter, ..] if b"PEFIKSCTXZGH".contains(letter));
    chance % if has_job { 4 } else { 256 } == 0
}

/// The length of the buffer for a line: mostly ample, else one that just fits,
/// one byte less, or any other.
fn room(rehearsal: &Second, both: &SideBySide, line: &[u8], chance: usize) -> usize {
    let chance = chance / 256;
    if chance % 4 != 0 {
        return AMPLE;
    }
    let mut desk = *both.desk();
    let output = rehearsal.line(&mut desk, line, &mut [0; AMPLE]).length;
    match chance / 4 % 4 {
        0 => output.saturating_sub(1),
        1 => chance / 16 % (output + 1),
        2 => output + chance / 16 % 8,
        _ => output,
    }
}

/// The job that a line says, whatever it says: its letter, and the first byte of
/// each field, of the numbers of P, X, Z and G their value.
fn job(line: &[u8]) -> Job {
    let fields: Vec<&[u8]> = line.split(|byte| *byte == b'\t').collect();
    let field = |place: usize| fields.get(place).copied().unwrap_or(b"");
    let [letter, a, b, c] = [0, 1, 2, 3].map(|place| field(place).first().copied().unwrap_or(0));
    let digit = |byte: u8| byte.wrapping_sub(b'0');
    let (a, b, c, k) = match letter {
        b'P' | b'X' => (a, digit(b), digit(c), 0),
        b'K' => (a, c, 0, exponent(field(2))),
        b'Z' => (digit(a), b, c, 0),
        b'G' => (digit(a), b, digit(c), 0),
        _ => (a, b, c, 0),
    };
    let number = |field: &[u8]| -> u64 {
        let said = std::str::from_utf8(field).ok().and_then(|n| n.parse().ok());
        said.unwrap_or(sum(field))
    };
    Job {
        letter,
        a,
        b,
        c,
        k,
        seed: number(field(5)),
        splits: number(field(4)) as u8,
    }
}

/// Changes to a slot of the desk, or to its open plan, three bytes for each:
/// what, where and how. If it is a desk still, it is the one to go on with.
fn damage(both: &mut SideBySide, letter: u8, edits: &[u8]) {
    let sound = *both.desk();
    let mut damaged = sound;
    let block = usize::from(letter.wrapping_sub(b'A')) % sound.blocks.len();
    for edit in edits.chunks_exact(3) {
        change(&mut damaged, block, edit[0], edit[1].into(), edit[2]);
    }
    both.start(&damaged);
    if !both.is_desk() {
        both.line(edits);
        both.job(job(edits));
        both.start(&sound);
    }
}

fn change(desk: &mut Desk, block: usize, what: u8, place: usize, how: u8) {
    let digit = u64::from(how & 15) << (how >> 4 << 2);
    let head = &mut desk.blocks[block];
    match what % 14 {
        0 => head.arity = how,
        1 => head.roots = how,
        2 => head.pairs = usize::from(how),
        3 => head.pairs ^= 1 << (how % 64),
        4 => desk.opened = how,
        5 => desk.control.changes[place % 8] = (COUNT_LIMIT + 2 - u64::from(how)) as u32,
        6 => desk.words(block)[place] ^= digit,
        7 => desk.words(block).swap(place, usize::from(how)),
        8 => desk.control.station = u32::from(how % 16),
        9 => desk.control.station ^= 1 << (how % 32),
        10 => desk
            .control
            .put_right(1 + place % 7, usize::from(how >> 2) % 8, how & 3),
        11 => desk.control.pairs ^= 1 << (how % 16),
        // behind a change of the counts, so that the sum isn't what is wrong
        12 => desk.settle(),
        _ => *desk = desk.without_open(),
    }
}
