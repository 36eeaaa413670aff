//! One run of a desk program: it is started, fed an input whole or in odd
//! pieces, and listened to until it ends. A program that does not end in its
//! time is stopped; one that fails or leaves input unread is told apart from
//! one that only replies wrongly.

use sessions::Rng;
use std::io::{Read, Write};
use std::process::{Child, Command, ExitStatus, Stdio};
use std::sync::mpsc::{channel, Receiver, RecvTimeoutError};
use std::thread;
use std::time::{Duration, Instant};

/// A desk program and the time that one run of it may take.
pub struct Program {
    pub command: Vec<String>,
    pub timeout: Duration,
}

/// How an input is handed over.
#[derive(Clone, Copy, PartialEq, Eq, Debug)]
pub enum Feeding {
    /// In one piece.
    Whole,
    /// Byte by byte.
    Bytes,
    /// In pieces of chance lengths, which mostly end inside a line.
    Cuts(u64),
}

/// Why a run cannot be judged by its output alone.
#[derive(Clone, PartialEq, Eq, Debug)]
pub enum Trouble {
    NotStarted(String),
    Hung,
    Died(String),
    Unread,
}

/// What a run gave.
pub struct Run {
    pub output: Vec<u8>,
    pub trouble: Option<Trouble>,
}

/// About how many pieces an input is cut into.
const PIECES: usize = 40;
/// The pause after a piece, for the program to read it before the next.
const PAUSE: Duration = Duration::from_micros(30);

/// The pieces of an input, in their order.
pub fn pieces(input: &[u8], feeding: Feeding) -> Vec<&[u8]> {
    match feeding {
        Feeding::Whole => vec![input],
        Feeding::Bytes => input.chunks(1).collect(),
        Feeding::Cuts(seed) => cuts(input, seed),
    }
}

fn cuts(mut input: &[u8], seed: u64) -> Vec<&[u8]> {
    let mut rng = Rng::new(seed);
    let most = (2 * input.len() / PIECES).max(2);
    let mut found = Vec::new();
    while !input.is_empty() {
        let size = rng.between(1, most).min(input.len());
        let (piece, rest) = input.split_at(size);
        found.push(piece);
        input = rest;
    }
    found
}

impl Program {
    /// Runs the program once on an input.
    pub fn run(&self, input: &[u8], feeding: Feeding) -> Run {
        match self.start() {
            Ok(child) => self.attend(child, input, feeding),
            Err(error) => Run {
                output: Vec::new(),
                trouble: Some(Trouble::NotStarted(error.to_string())),
            },
        }
    }

    fn start(&self) -> std::io::Result<Child> {
        Command::new(&self.command[0])
            .args(&self.command[1..])
            .stdin(Stdio::piped())
            .stdout(Stdio::piped())
            .stderr(Stdio::piped())
            .spawn()
    }

    fn attend(&self, mut child: Child, input: &[u8], feeding: Feeding) -> Run {
        let deadline = Instant::now() + self.timeout;
        let fed = feed(&mut child, input, feeding);
        let spoken = listen(child.stdout.take());
        let errors = listen(child.stderr.take());
        let mut output = Vec::new();
        let ended = collect(&spoken, deadline, &mut output);
        let status = if ended {
            wait(&mut child, deadline)
        } else {
            None
        };
        let trouble = match status {
            None => {
                stop(&mut child);
                Some(Trouble::Hung)
            }
            Some(status) if !status.success() => {
                let mut said = Vec::new();
                collect(&errors, deadline, &mut said);
                Some(Trouble::Died(last_words(status, &said)))
            }
            Some(_) if fed.recv() == Ok(true) => None,
            Some(_) => Some(Trouble::Unread),
        };
        Run { output, trouble }
    }
}

/// Hands the input over from another thread, so that a program that writes
/// before it has read everything is not blocked; says true once all is read.
fn feed(child: &mut Child, input: &[u8], feeding: Feeding) -> Receiver<bool> {
    let (sender, receiver) = channel();
    let input = input.to_vec();
    let stdin = child.stdin.take();
    thread::spawn(move || {
        let Some(mut stdin) = stdin else { return };
        let parts = pieces(&input, feeding);
        let pause = parts.len() > 1;
        let taken = parts.into_iter().all(|piece| {
            let taken = stdin.write_all(piece).and_then(|()| stdin.flush()).is_ok();
            if pause {
                thread::sleep(PAUSE);
            }
            taken
        });
        drop(stdin);
        // Nobody may be listening any more, which is no trouble of ours.
        let _ = sender.send(taken);
    });
    receiver
}

/// Reads a stream in another thread and passes on what comes, until its end.
fn listen(stream: Option<impl Read + Send + 'static>) -> Receiver<Vec<u8>> {
    let (sender, receiver) = channel();
    thread::spawn(move || {
        let Some(mut stream) = stream else { return };
        let mut buffer = vec![0; 1 << 16];
        while let Ok(count) = stream.read(&mut buffer) {
            if count == 0 || sender.send(buffer[..count].to_vec()).is_err() {
                break;
            }
        }
    });
    receiver
}

/// Gathers a stream up to its end; false if the deadline came before it.
fn collect(stream: &Receiver<Vec<u8>>, deadline: Instant, gathered: &mut Vec<u8>) -> bool {
    loop {
        let left = deadline.saturating_duration_since(Instant::now());
        match stream.recv_timeout(left) {
            Ok(bytes) => gathered.extend(bytes),
            Err(RecvTimeoutError::Disconnected) => return true,
            Err(RecvTimeoutError::Timeout) => return false,
        }
    }
}

/// Waits for the end of a program that has closed its output already.
fn wait(child: &mut Child, deadline: Instant) -> Option<ExitStatus> {
    loop {
        if let Ok(Some(status)) = child.try_wait() {
            return Some(status);
        }
        if Instant::now() >= deadline {
            return None;
        }
        thread::sleep(Duration::from_micros(200));
    }
}

fn stop(child: &mut Child) {
    // It may have ended by itself in the meantime; then there is nothing to do.
    let _ = child.kill();
    let _ = child.wait();
}

/// The status of a failed program and the first line of its complaint.
fn last_words(status: ExitStatus, said: &[u8]) -> String {
    let said = String::from_utf8_lossy(said);
    match said.lines().find(|line| !line.trim().is_empty()) {
        Some(line) => format!("{status}, saying: {line}"),
        None => status.to_string(),
    }
}

#[cfg(test)]
mod tests {
    use super::*;

    fn shell(script: &str, milliseconds: u64) -> Program {
        Program {
            command: vec!["sh".into(), "-c".into(), script.into()],
            timeout: Duration::from_millis(milliseconds),
        }
    }

    #[test]
    fn the_pieces_are_the_input() {
        let input: Vec<u8> = (0..=255).cycle().take(3000).collect();
        for feeding in [Feeding::Whole, Feeding::Bytes, Feeding::Cuts(4)] {
            assert_eq!(pieces(&input, feeding).concat(), input);
        }
        assert_eq!(pieces(&input, Feeding::Bytes).len(), 3000);
        assert_eq!(pieces(b"", Feeding::Whole).concat(), b"");
        assert!(pieces(b"", Feeding::Cuts(1)).is_empty());
    }

    #[test]
    fn cuts_fall_inside_lines() {
        let input = b"P\tA\t2\t1\n".repeat(50);
        let found = pieces(&input, Feeding::Cuts(9));
        let inside = found.iter().filter(|piece| !piece.ends_with(b"\n")).count();
        assert!(found.len() > PIECES / 2 && inside > found.len() / 2);
        assert_ne!(found, pieces(&input, Feeding::Cuts(10)));
    }

    #[test]
    fn every_feeding_arrives_whole() {
        let program = shell("cat", 5000);
        let input = b"P\tA\t2\t1\nE\n\0\xff\r\nT".to_vec();
        for feeding in [Feeding::Whole, Feeding::Bytes, Feeding::Cuts(2)] {
            let run = program.run(&input, feeding);
            assert_eq!((run.output, run.trouble), (input.clone(), None));
        }
    }

    #[test]
    fn a_program_that_hangs_is_stopped_in_its_time() {
        let begun = Instant::now();
        let run = shell("echo ok; exec sleep 30", 300).run(b"T\n", Feeding::Whole);
        assert_eq!(run.trouble, Some(Trouble::Hung));
        assert_eq!(run.output, b"ok\n");
        assert!(begun.elapsed() < Duration::from_secs(10));
    }

    #[test]
    fn a_program_that_closes_its_output_and_stays_is_stopped_too() {
        let run = shell("exec >&- 2>&-; exec sleep 30", 300).run(b"T\n", Feeding::Whole);
        assert_eq!(run.trouble, Some(Trouble::Hung));
    }

    #[test]
    fn a_program_that_dies_is_told() {
        let run =
            shell("cat >/dev/null; echo broken >&2; exit 3", 5000).run(b"T\n", Feeding::Whole);
        let Some(Trouble::Died(words)) = run.trouble else {
            panic!("{:?}", run.trouble)
        };
        assert!(words.contains('3') && words.contains("broken"));
    }

    #[test]
    fn a_program_that_leaves_input_unread_is_told() {
        let input = b"T\n".repeat(200_000);
        let run = shell("exit 0", 5000).run(&input, Feeding::Whole);
        assert_eq!(run.trouble, Some(Trouble::Unread));
    }

    #[test]
    fn a_program_that_is_not_there_is_told() {
        let program = Program {
            command: vec!["./no-such-desk".into()],
            timeout: Duration::from_secs(1),
        };
        let run = program.run(b"T\n", Feeding::Whole);
        assert!(matches!(run.trouble, Some(Trouble::NotStarted(_))));
    }
}
