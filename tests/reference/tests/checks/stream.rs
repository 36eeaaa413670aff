//! Input in pieces: any cutting gives the same replies, lines end as the paper
//! says, and the program answers each line before it waits for the next.

use std::collections::BTreeMap;
use std::io::{BufRead, BufReader, Read, Write};
use std::process::{Child, ChildStdin, ChildStdout, Command, Stdio};
use std::sync::mpsc;
use std::thread;
use std::time::Duration;

use reference::{session, Desk, Shape, Word};

use crate::random::Random;

/// A random session: plans typed well or badly, operations on random slots,
/// broken lines and lines that are too long.
pub fn random_session(random: &mut Random, records: usize) -> Vec<u8> {
    let mut input = Vec::new();
    for _ in 0..records {
        match random.below(20) {
            0..=4 => input.extend(typed_plan(random)),
            5 => input.extend(broken_line(random)),
            _ => input.extend(operation(random)),
        }
    }
    input
}

fn slot(random: &mut Random) -> String {
    let letters = "AAABBCDEFGHZ";
    let place = random.below(letters.len());
    letters[place..=place].to_string()
}

fn typed_plan(random: &mut Random) -> Vec<u8> {
    let arity = *random.pick(&[2, 2, 2, 3]);
    let shape = Shape { arity, roots: 1 };
    let mut typed = random.typed(shape, 20);
    if random.one_in(4) {
        spoil(random, &mut typed);
    }
    let mut lines = format!("P\t{}\t{arity}\t1\n", slot(random)).into_bytes();
    for (from, to) in typed {
        lines.extend([b"M\t", from.as_slice(), b"\t", &to, b"\n"].concat());
        if random.one_in(200) {
            lines.extend(operation(random));
        }
    }
    lines.extend(b"E\n");
    lines
}

fn spoil(random: &mut Random, typed: &mut Vec<(Word, Word)>) {
    let place = random.below(typed.len());
    let other = random.below(typed.len());
    match random.below(6) {
        0 => typed[place].0.push(b'1'),
        1 => typed[place].1.push(b'1'),
        2 => typed[place].0 = typed[other].0.clone(),
        3 => typed[place].1 = typed[other].1.clone(),
        4 => typed[place].0[0] = b'7',
        _ => typed.extend(vec![typed[place].clone(); 130]),
    }
}

fn operation(random: &mut Random) -> Vec<u8> {
    let (a, b, c) = (slot(random), slot(random), slot(random));
    let line = match random.below(14) {
        0..=2 => format!("F\t{a}\t{b}\t{c}"),
        3 => format!("I\t{a}\t{b}"),
        4..=5 => {
            let k = *random.pick(&[0, 1, 2, 3, -1, -2, 5, 17, -40, 1000, 1001]);
            format!("K\t{a}\t{k}\t{b}")
        }
        6 => format!("S\t{a}\t{b}"),
        7 => {
            let shape = Shape { arity: 2, roots: 1 };
            let length = 1 + random.below(12);
            let code = String::from_utf8(random.code(shape, length)).unwrap();
            format!("W\t{a}\t{code}")
        }
        8 => format!("L\t{a}"),
        9 => {
            let station = random.below(10);
            let naming = format!("Z\t{station}");
            random.pick(&["T", "U", "P\tA\t1\t1", &naming]).to_string()
        }
        10 => format!("C\t{a}"),
        11 => {
            let (splits, seed) = (random.below(9), random.below(50));
            format!("X\t{a}\t2\t1\t{splits}\t{seed}")
        }
        12 => {
            let gift = format!("G\t{}\t{a}\t{}", random.below(8), random.below(3));
            random.pick(&["H", "H", "Z\t0\nH", &gift]).to_string()
        }
        _ => format!("S\t{a}\t{a}"),
    };
    (line + "\n").into_bytes()
}

fn broken_line(random: &mut Random) -> Vec<u8> {
    let length = *random.pick(&[0, 1, 5, 30, 1099, 1100, 1101, 5000]);
    let mut line: Vec<u8> = (0..length).map(|_| random.next() as u8).collect();
    line.push(b'\n');
    line
}

/// How often each kind of reply comes, by its first two fields without
/// numbers that vary.
fn tally(replies: &[u8]) -> BTreeMap<String, usize> {
    let mut counts = BTreeMap::new();
    for line in String::from_utf8_lossy(replies).lines() {
        let fields: Vec<&str> = line.split('\t').collect();
        let kind = match fields[..] {
            ["no", ..] => line,
            ["B", from, _, _] if from.len() > 1 => "block",
            _ => "other",
        };
        *counts.entry(kind.to_string()).or_insert(0) += 1;
    }
    counts
}

fn in_pieces(random: &mut Random, input: &[u8], longest: usize) -> Vec<u8> {
    let mut desk = Desk::new();
    let mut out = Vec::new();
    let mut rest = input;
    while !rest.is_empty() {
        let length = random.below(longest + 1).min(rest.len());
        let (piece, later) = rest.split_at(length);
        desk.feed(piece, &mut out);
        rest = later;
    }
    desk.finish(&mut out);
    out
}

#[test]
fn pieces_give_the_same_as_the_whole() {
    let mut random = Random::new(31);
    let mut all = Vec::new();
    for _ in 0..40 {
        let mut input = random_session(&mut random, 150);
        input.truncate(input.len() - random.below(3));
        let whole = session(&input);
        for longest in [1, 7, 300, 5000] {
            assert_eq!(in_pieces(&mut random, &input, longest), whole);
        }
        all.extend(whole);
    }
    let counts = tally(&all);
    for number in [1, 2, 3, 4, 5, 8, 9, 10, 11, 12, 17, 18, 19, 20] {
        assert!(counts.contains_key(&format!("no\t{number}")), "{number}");
    }
    for column in ["6\tF", "6\tT", "7\tF", "7\tT"] {
        assert!(counts.contains_key(&format!("no\t{column}")), "{column}");
    }
    assert!(counts["other"] > 1000 && counts["block"] > 100);
    assert!(!counts.contains_key("no\t13"));
}

#[test]
fn the_last_line() {
    assert_eq!(session(b""), b"");
    assert_eq!(session(b"\n"), b"no\t1\n");
    assert_eq!(session(b"T"), b"ok\t0\n");
    assert_eq!(session(b"T\n"), b"ok\t0\n");
    assert_eq!(session(b"T\n\n"), b"ok\t0\nno\t1\n");
    assert_eq!(session(b"T\nT"), b"ok\t0\nok\t0\n");
    assert_eq!(session(b"T\r\n"), b"no\t1\n");
    assert_eq!(session(b"P\tA\t2\t1\nM\t1\t1"), b"");
    assert_eq!(session(b"P\tA\t2\t1\nM\t1\t1\nE"), b"ok\t1\n");
    assert_eq!(session(&[b'T'; 1100]), b"no\t1\n");
    assert_eq!(session(&[b'T'; 1101]), b"no\t1\n");
    assert_eq!(session(&[b'T'; 100_000]), b"no\t1\n");
    let long_then_short = [vec![b'T'; 1101], b"\nT\n".to_vec()].concat();
    assert_eq!(session(&long_then_short), b"no\t1\nok\t0\n");
    let two_long = [vec![b'T'; 2202], b"\n".to_vec(), vec![b'T'; 1101]].concat();
    assert_eq!(session(&two_long), b"no\t1\nno\t1\n");
}

/// "An open plan is dropped at the end of input."
#[test]
fn the_end_drops_an_open_plan() {
    let mut desk = Desk::new();
    let mut out = Vec::new();
    desk.feed(b"P\tA\t2\t1\nM\t1\t1\n", &mut out);
    desk.finish(&mut out);
    assert!(out.is_empty());
    desk.feed(b"T\nE\n", &mut out);
    assert_eq!(out, b"ok\t0\nno\t2\n");
}

fn start() -> (Child, ChildStdin, ChildStdout) {
    let mut child = Command::new(env!("CARGO_BIN_EXE_reference"))
        .stdin(Stdio::piped())
        .stdout(Stdio::piped())
        .spawn()
        .expect("the program starts");
    let input = child.stdin.take().expect("its input is a pipe");
    let output = child.stdout.take().expect("its output is a pipe");
    (child, input, output)
}

/// Each reply is there before the next line is written.
#[test]
fn the_program_answers_line_by_line() {
    let (mut child, mut input, output) = start();
    let (send, replies) = mpsc::channel();
    let reader = thread::spawn(move || {
        for line in BufReader::new(output).lines() {
            send.send(line.expect("text")).expect("somebody listens");
        }
    });
    let wait = Duration::from_secs(60);
    for (records, reply) in [
        ("T\n", "ok\t0"),
        ("P\tA\t2\t1\nM\t11\t12\nM\t12\t11\nE\n", "ok\t2"),
        ("W\tA\t112\n", "ok\t122\t1"),
        ("X\n", "no\t1"),
        ("T\n", "ok\t1"),
        ("Z\t7\n", "ok"),
        ("T\n", "ok\t0"),
    ] {
        input.write_all(records.as_bytes()).expect("it reads");
        assert_eq!(replies.recv_timeout(wait).as_deref(), Ok(reply));
    }
    input.write_all(b"S\tA\tA").expect("it reads");
    drop(input);
    assert_eq!(replies.recv_timeout(wait).as_deref(), Ok("ok\t1"));
    assert!(child.wait().expect("it ends").success());
    reader.join().expect("the reader ends");
    assert!(replies.try_recv().is_err());
}

#[test]
fn the_program_gives_what_the_library_gives() {
    let mut random = Random::new(32);
    let text = random_session(&mut random, 1500);
    let expected = session(&text);
    assert!(expected.len() > 10_000);
    let (mut child, mut input, mut output) = start();
    let writer = thread::spawn(move || input.write_all(&text).expect("it reads"));
    let mut replies = Vec::new();
    output.read_to_end(&mut replies).expect("it writes");
    writer.join().expect("the writer ends");
    assert!(child.wait().expect("it ends").success());
    assert!(replies == expected);
}
