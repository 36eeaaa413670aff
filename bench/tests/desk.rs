//! The desk on arrays held to the second implementation, on random sessions
//! without the records that it doesn't know, whole and cut into pieces; and on
//! the blocks, the plans of X, the counts, the pairs held, the stations and the rights
//! that are measured.

use bench::arrays::desk::Desk;

/// The letters of the records that aren't measured.
const UNKNOWN: &[u8] = b"SLCU";

#[test]
fn random_sessions() {
    let mut asked = 0;
    for seed in 0..100 {
        let input = known(&sessions::session(seed));
        let mut expected = Vec::new();
        reference::Desk::new().feed(&input, &mut expected);
        for size in [input.len(), 97] {
            let mut desk = Desk::default();
            let mut replies = Vec::new();
            for piece in input.chunks(size) {
                desk.feed(piece, &mut replies);
            }
            assert!(replies == expected, "seed {seed}, pieces of {size} bytes");
        }
        let lines = input.split(|byte| *byte == b'\n');
        asked += lines.filter(|line| *line == b"H").count();
    }
    assert!(asked > 1000, "H came up {asked} times");
}

#[test]
fn measured_blocks() {
    let sessions = bench::sessions::sessions();
    let mut blocks = sessions.iter().filter(|s| s.name.starts_with("W block"));
    let input = blocks.next().expect("blocks are measured").input.as_bytes();
    let (mut expected, mut replies) = (Vec::new(), Vec::new());
    reference::Desk::new().feed(input, &mut expected);
    Desk::default().feed(input, &mut replies);
    assert!(replies == expected);
    let lines = replies.split(|byte| *byte == b'\n');
    let rows = lines.filter(|line| line.starts_with(b"B\t")).count();
    assert!(rows > 100_000, "{rows}");
}

#[test]
fn measured_exercises() {
    let sessions = bench::sessions::sessions();
    let measured: Vec<_> = sessions
        .iter()
        .filter(|s| s.name.starts_with('X'))
        .collect();
    assert_eq!(measured.len(), 2);
    for session in measured {
        let (mut expected, mut replies) = (Vec::new(), Vec::new());
        reference::Desk::new().feed(session.input.as_bytes(), &mut expected);
        Desk::default().feed(session.input.as_bytes(), &mut replies);
        assert!(replies == expected, "{}", session.name);
        let lines = replies.split(|byte| *byte == b'\n');
        let refused = lines.filter(|line| line.starts_with(b"no\t")).count();
        assert_eq!(refused, session.refused, "{}", session.name);
        assert_eq!(refused > 0, session.name.contains("99"));
    }
}

#[test]
fn measured_counts_pairs_and_stations() {
    let sessions = bench::sessions::sessions();
    for (name, last) in [
        ("T", &b"ok\t8\n"[..]),
        ("H", b"ok\t1024\n"),
        ("Z", b"ok\n"),
        ("G", b"ok\n"),
    ] {
        let mut measured = sessions.iter().filter(|session| session.name == name);
        let input = measured.next().expect("it is measured").input.as_bytes();
        let (mut expected, mut replies) = (Vec::new(), Vec::new());
        reference::Desk::new().feed(input, &mut expected);
        let mut desk = Desk::default();
        desk.feed(input, &mut replies);
        assert!(replies == expected, "{name}");
        assert!(replies.ends_with(&last.repeat(1_000_000)), "{name}");
    }
}

#[test]
fn measured_codes_of_a_limited_station() {
    let sessions = bench::sessions::sessions();
    let mut measured = sessions.iter().filter(|s| s.name.ends_with("of station 1"));
    let input = measured.next().expect("it is measured").input.as_bytes();
    let (mut expected, mut replies) = (Vec::new(), Vec::new());
    reference::Desk::new().feed(input, &mut expected);
    Desk::default().feed(input, &mut replies);
    assert!(replies == expected);
    assert!(!replies.windows(3).any(|bytes| bytes == b"no\t"));
}

/// The lines that don't begin with an unknown letter, each with its byte 10.
fn known(input: &[u8]) -> Vec<u8> {
    let lines = input.split(|byte| *byte == b'\n');
    let known = lines.filter(|line| line.first().is_none_or(|letter| !UNKNOWN.contains(letter)));
    known.flat_map(|line| [line, b"\n"].concat()).collect()
}
