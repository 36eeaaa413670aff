//! What a range of seeds has to bring up: every operation, every shape, every
//! limit with the first value beyond it, stray bytes and missing ends.

use super::session;

fn lines(seed: u64) -> Vec<Vec<u8>> {
    session(seed)
        .split(|&byte| byte == b'\n')
        .map(<[u8]>::to_vec)
        .collect()
}

fn all_lines(seeds: std::ops::Range<u64>) -> Vec<Vec<u8>> {
    seeds.flat_map(lines).collect()
}

#[test]
fn a_seed_decides_its_session() {
    assert_eq!(session(5), session(5));
    assert_ne!(session(5), session(6));
}

#[test]
fn every_operation_and_every_shape_comes_up() {
    let lines = all_lines(0..72);
    for letter in b"PMEFIKSWLCTUXZGH" {
        let found = lines.iter().any(|line| line.first() == Some(letter));
        assert!(found, "no record {}", *letter as char);
    }
    for n in 2..=9 {
        for r in 1..=9 {
            let end = format!("\t{n}\t{r}").into_bytes();
            let found = lines
                .iter()
                .any(|line| line.starts_with(b"P\t") && line.ends_with(&end));
            assert!(found, "no plan of shape {n}, {r}");
        }
    }
}

#[test]
fn every_boundary_comes_up() {
    let lines = all_lines(0..200);
    for length in [1100, 1101] {
        assert!(lines.iter().any(|line| line.len() == length), "{length}");
    }
    for k in ["1000", "-1000", "1001", "-1001", "0", "-0", "10000"] {
        let middle = format!("\t{k}\t").into_bytes();
        let found = lines
            .iter()
            .any(|line| line.starts_with(b"K\t") && line[3..].starts_with(&middle));
        assert!(found, "no power {k}");
    }
    for digits in [16, 17] {
        let found = lines.iter().any(|line| {
            line.starts_with(b"M\t")
                && line[2..].split(|&byte| byte == b'\t').any(|word| {
                    word.len() == digits && word.iter().all(|byte| byte.is_ascii_digit())
                })
        });
        assert!(found, "no word of {digits} digits");
    }
    for digits in [1024, 1025] {
        let found = lines
            .iter()
            .any(|line| line.starts_with(b"W\t") && line.len() == digits + 4);
        assert!(found, "no code of {digits} digits");
    }
}

/// A front of so many digits is one that the next W has a digit more of.
#[test]
fn fronts_of_every_length_come_up() {
    let lines = all_lines(0..300);
    for digits in 1..16 {
        let longer = |pair: &&[Vec<u8>]| {
            let code = pair[0].strip_prefix(b"W\t");
            code.is_some_and(|code| code.len() == 2 + digits)
                && pair[1].len() == pair[0].len() + 1
                && pair[1].starts_with(&pair[0])
        };
        let found = lines.windows(2).filter(longer).count();
        assert!(found > 4, "{found} fronts of {digits} digits");
    }
}

/// W comes up in runs of images and fronts, and behind L and I too.
#[test]
fn places_come_up() {
    let lines = all_lines(0..200);
    let starts = |line: &[u8], letter| line.first() == Some(&letter);
    for (first, second, least) in [(b'W', b'W', 4000), (b'L', b'W', 100), (b'I', b'W', 100)] {
        let behind = |pair: &&[Vec<u8>]| starts(&pair[0], first) && starts(&pair[1], second);
        let found = lines.windows(2).filter(behind).count();
        let [first, second] = [first, second].map(char::from);
        assert!(found > least, "{found} times {second} behind {first}");
    }
}

/// What U lists has just changed: a plan is kept or typed, or a slot emptied.
#[test]
fn surveys_come_up_behind_changes() {
    let lines = all_lines(0..200);
    for letter in [b'K', b'E', b'C'] {
        let behind = |pair: &&[Vec<u8>]| pair[0].first() == Some(&letter) && pair[1] == b"U";
        let found = lines.windows(2).filter(behind).count();
        assert!(found > 20, "{found} times U behind {}", letter as char);
    }
}

/// X of every shape, with s and the seed at their ends and beyond, and records that
/// use its plans.
#[test]
fn exercises_come_up() {
    let lines = all_lines(0..200);
    let fields = |line: &Vec<u8>| -> Vec<String> {
        let fields = line.split(|&byte| byte == b'\t');
        let text = |field: &[u8]| String::from_utf8_lossy(field).into_owned();
        fields.map(text).collect()
    };
    let all: Vec<Vec<String>> = lines.iter().map(fields).collect();
    let made: Vec<&Vec<String>> = all.iter().filter(|x| x[0] == "X" && x.len() == 6).collect();
    for (n, r) in (2..=9).flat_map(|n| (1..=9).map(move |r| (n, r))) {
        let shape = [n.to_string(), r.to_string()];
        let found = made.iter().filter(|x| x[2..4] == shape).count();
        assert!(found > 2, "{found} of shape {n}, {r}");
    }
    for splits in ["0", "1", "9", "10", "15", "99", "00", "07", "100", ""] {
        assert!(made.iter().any(|x| x[4] == splits), "no s {splits}");
    }
    for seed in [
        "0",
        "1",
        "2147483646",
        "2147483647",
        "4294967297",
        "9999999999",
        "00",
        "10000000000",
        "",
    ] {
        assert!(made.iter().any(|x| x[5] == seed), "no seed {seed}");
    }
    for letter in ["L", "W", "I", "F", "K", "S", "U", "T"] {
        let behind = |pair: &&[Vec<String>]| pair[0][0] == "X" && pair[1][0] == letter;
        let found = all.windows(2).filter(behind).count();
        assert!(found > 20, "{found} times {letter} behind X");
    }
}

/// Z with every digit and with all that is wrong, before T and in open plans too.
#[test]
fn stations_come_up() {
    let lines = all_lines(0..200);
    let times = |line: &[u8]| lines.iter().filter(|other| *other == line).count();
    for digit in b'0'..=b'9' {
        let found = times(&[b'Z', b'\t', digit]);
        let least = if digit < b'8' { 200 } else { 40 };
        assert!(found > least, "{found} of Z {}", digit as char);
    }
    for wrong in ["", "10", "00", "07", "-0", "x", "80", "1\t", "8\t8"] {
        let found = times(format!("Z\t{wrong}").as_bytes());
        assert!(found > 0, "no Z {wrong}");
    }
    assert!(times(b"Z") > 0);
    for (first, second, least) in [(b'Z', b'T', 1000), (b'P', b'Z', 10), (b'M', b'Z', 30)] {
        let starts = |line: &[u8], letter| line.first() == Some(&letter);
        let behind = |pair: &&[Vec<u8>]| starts(&pair[0], first) && starts(&pair[1], second);
        let found = lines.windows(2).filter(behind).count();
        let [first, second] = [first, second].map(char::from);
        assert!(found > least, "{found} times {second} behind {first}");
    }
}

/// G with every station and right and with all that is wrong, and in open plans.
#[test]
fn rights_come_up() {
    let lines = all_lines(0..600);
    let times = |line: &[u8]| lines.iter().filter(|other| *other == line).count();
    for (station, right) in (1..8).flat_map(|station| (0..3).map(move |right| (station, right))) {
        let given = |slot: char| times(format!("G\t{station}\t{slot}\t{right}").as_bytes());
        let found: usize = ('A'..='H').map(given).sum();
        assert!(found > 30, "{found} of G {station} {right}");
    }
    let starting = |front: &[u8]| lines.iter().filter(|line| line.starts_with(front)).count();
    for (front, least) in [("G\t0\t", 50), ("G\t8\t", 40), ("G\t9\t", 20), ("G\t\t", 0)] {
        let found = starting(front.as_bytes());
        assert!(found > least, "{found} of {front}");
    }
    for right in ["3", "4", "9", "", "00", "02", "10", "-1", "x"] {
        let end = format!("\t{right}").into_bytes();
        let wrong = |line: &&Vec<u8>| {
            let fields = line.split(|&byte| byte == b'\t').count();
            line.starts_with(b"G\t") && line.ends_with(&end) && fields == 4
        };
        assert!(lines.iter().any(|line| wrong(&line)), "no right {right}");
    }
    for (first, second, least) in [(b'P', b'G', 10), (b'M', b'G', 30), (b'G', b'Z', 300)] {
        let starts = |line: &[u8], letter| line.first() == Some(&letter);
        let behind = |pair: &&[Vec<u8>]| starts(&pair[0], first) && starts(&pair[1], second);
        let found = lines.windows(2).filter(behind).count();
        let [first, second] = [first, second].map(char::from);
        assert!(found > least, "{found} times {second} behind {first}");
    }
}

/// H right behind each kind of change, from station 0 and from others, in open plans and
/// in wrong forms.
#[test]
fn lamps_come_up() {
    let lines = all_lines(0..200);
    let starts = |line: &[u8], letter| line.first() == Some(&letter);
    for (first, least) in [
        (b'E', 100),
        (b'F', 60),
        (b'I', 20),
        (b'K', 60),
        (b'C', 15),
        (b'X', 20),
        (b'Z', 2000),
        (b'G', 10),
        (b'M', 100),
        (b'P', 30),
    ] {
        let behind = |pair: &&[Vec<u8>]| starts(&pair[0], first) && pair[1] == b"H";
        let found = lines.windows(2).filter(behind).count();
        let first = char::from(first);
        assert!(found > least, "{found} times H behind {first}");
    }
    for wrong in ["H\t", "H\t0", "H\tA", "HH", "h", "H\r", "H\0"] {
        let found = lines.iter().filter(|line| *line == wrong.as_bytes());
        assert!(found.count() > 3, "{wrong}");
    }
}

#[test]
fn n_and_r_come_up_at_their_ends() {
    let lines = all_lines(0..200);
    for end in ["0\t1", "1\t1", "2\t0", "9\t9", "2\t1", "9\t0", "0\t9"] {
        let end = format!("\t{end}").into_bytes();
        let found = lines
            .iter()
            .any(|line| line.starts_with(b"P\t") && line.ends_with(&end));
        assert!(found, "no P ending {:?}", String::from_utf8_lossy(&end));
    }
}

#[test]
fn runs_of_128_and_129_pairs_come_up() {
    let lines = all_lines(0..200);
    let mut runs = Vec::new();
    let mut run = 0;
    for line in &lines {
        if line.starts_with(b"M\t") {
            run += 1;
        } else if run > 0 {
            runs.push(run);
            run = 0;
        }
    }
    assert!(runs.contains(&128) && runs.contains(&129));
    assert!(runs.iter().all(|&run| run <= 131));
}

#[test]
fn stray_bytes_and_missing_ends_come_up() {
    let sessions: Vec<Vec<u8>> = (0..200).map(session).collect();
    for byte in [0, 13, 255] {
        assert!(sessions.iter().any(|bytes| bytes.contains(&byte)));
    }
    let ended = sessions
        .iter()
        .filter(|bytes| bytes.last() == Some(&b'\n'))
        .count();
    assert!(ended > 0 && ended < sessions.len());
    assert!(sessions
        .iter()
        .any(|bytes| bytes.windows(2).any(|pair| pair == b"\n\n")));
}
