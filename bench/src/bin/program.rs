//! The desk program beside the second implementation's, the desk on arrays, the desk
//! by desk_feed and a loop that only finds lines, on the same inputs in one run; where
//! it is asked for, beside another desk program from before a change. All are programs
//! of their own that read a file and write to nowhere; three of them are this one,
//! called with `--as`. The desks must write the same before they are measured. It
//! prints tables in Markdown and whether the aims are reached, and draws a chart where
//! it is asked to. Records are measured in the processor's time, which other programs
//! on the machine change less than that of a clock; the programs wait for nothing.

use std::fs::{self, File};
use std::io;
use std::ops::RangeInclusive;
use std::path::Path;
use std::process::{Command, ExitCode, Stdio};
use std::time::{Duration, Instant};

use bench::aims::{self, Aim};
use bench::chart::{Bar, Chart};
use bench::options::Options;
use bench::processor::seconds_of_children;
use bench::served::serve;
use bench::sessions::{sessions, Session};

/// How often each program is run on each input, the best run counts: as often
/// as fits into the span, within these bounds. On a shared machine an undisturbed
/// run is rare.
const ROUNDS: RangeInclusive<usize> = 15..=60;
const SPAN: Duration = Duration::from_secs(20);

/// How often each program is started on no input.
const STARTS: usize = 101;

/// What the table of starts is called where only some rows are wanted.
const START: &str = "start and end on no input";

const USAGE: &str = "usage: program [--only WORDS].. [--chart FILE] [--script SCRIPT] \
                     [--before PROGRAM] --second PROGRAM -- PROGRAM [ARGUMENT..]";

/// A program that is measured.
struct Version {
    name: &'static str,
    command: Vec<String>,
}

/// The nanoseconds of a record in each version.
struct Times {
    name: &'static str,
    desk: f64,
    feed: f64,
    arrays: f64,
    second: f64,
    lines: f64,
    before: Option<f64>,
}

fn main() -> ExitCode {
    let given: Vec<String> = std::env::args().skip(1).collect();
    let done = match &given[..] {
        [flag, version] if flag == "--as" => serve(version),
        _ => match Options::read(given) {
            Some(options) if !options.desk.is_empty() && options.second.is_some() => all(&options),
            _ => Err(io::Error::other(USAGE)),
        },
    };
    match done {
        Ok(()) => ExitCode::SUCCESS,
        Err(error) => {
            eprintln!("program: {error}");
            ExitCode::FAILURE
        }
    }
}

/// Both tables, the aims and the chart.
fn all(options: &Options) -> io::Result<()> {
    let folder = std::env::temp_dir().join(format!("program-{}", std::process::id()));
    fs::create_dir(&folder)?;
    let done = tables(options, &folder.join("input"));
    fs::remove_dir_all(&folder)?;
    done
}

fn tables(options: &Options, file: &Path) -> io::Result<()> {
    let versions = versions(options)?;
    let mut rows = Vec::new();
    head(options.before.is_some());
    for session in sessions().iter().filter(|row| options.wants(row.name)) {
        let row = row(session, &versions, file)?;
        row.print();
        rows.push(row);
    }
    let mut aims: Vec<Aim> = rows.iter().flat_map(Times::aims).collect();
    if options.wants(START) {
        println!();
        aims.extend(starts(options, versions, file)?);
    }
    println!("\n{}", aims::report(&aims).trim_end());
    match &options.chart {
        Some(file) => fs::write(file, chart(&rows).svg()),
        None => Ok(()),
    }
}

/// The programs: the desks first, which must write the same.
fn versions(options: &Options) -> io::Result<Vec<Version>> {
    let own = std::env::current_exe()?;
    let own = own.to_str().ok_or(io::Error::other("a path of bytes"))?;
    let served = |name| Version {
        name,
        command: vec![own.into(), "--as".into(), name.into()],
    };
    let other = |name, program: &Option<String>| {
        let command = program.iter().cloned().collect();
        program.is_some().then_some(Version { name, command })
    };
    let desk = Version {
        name: "desk",
        command: options.desk.clone(),
    };
    let mut versions = vec![desk, served("feed"), served("arrays")];
    versions.extend(other("second", &options.second));
    versions.extend(other("before", &options.before));
    versions.push(served("lines"));
    Ok(versions)
}

/// The heading of the first table.
fn head(before: bool) {
    let mut columns = vec![
        "desk ns",
        "feed ns",
        "arrays ns",
        "second ns",
        "lines ns",
        "desk / lines",
        "desk / arrays",
        "second / desk",
        "feed / desk",
    ];
    if before {
        columns.extend(["before ns", "desk / before"]);
    }
    println!("| records | {} |", columns.join(" | "));
    println!("|---|{}", "--:|".repeat(columns.len()));
}

/// A line of the first table: the programs by turns, and the best round of each.
fn row(session: &Session, versions: &[Version], file: &Path) -> io::Result<Times> {
    fs::write(file, &session.input)?;
    agree(session, versions, file)?;
    let mut best = vec![f64::INFINITY; versions.len()];
    let start = Instant::now();
    for round in 0..*ROUNDS.end() {
        if round >= *ROUNDS.start() && start.elapsed() > SPAN {
            break;
        }
        for turn in 0..versions.len() {
            let version = (round + turn) % versions.len();
            let before = seconds_of_children();
            run(&versions[version].command, file)?;
            let time = seconds_of_children() - before;
            best[version] = best[version].min(time * 1e9 / session.records as f64);
        }
    }
    let of = |name: &str| {
        let place = versions.iter().position(|version| version.name == name);
        place.map(|place| best[place])
    };
    let sure = |name| of(name).expect("it is always measured");
    Ok(Times {
        name: session.name,
        desk: sure("desk"),
        feed: sure("feed"),
        arrays: sure("arrays"),
        second: sure("second"),
        lines: sure("lines"),
        before: of("before"),
    })
}

impl Times {
    fn print(&self) {
        let times = [self.desk, self.feed, self.arrays, self.second, self.lines];
        let ratios = [
            self.desk / self.lines,
            self.desk / self.arrays,
            self.second / self.desk,
            self.feed / self.desk,
        ];
        let mut cells = vec![self.name.to_string()];
        cells.extend(times.map(|time| format!("{time:.0}")));
        cells.extend(ratios.map(|ratio| format!("{ratio:.2}")));
        if let Some(before) = self.before {
            cells.push(format!("{before:.0}"));
            cells.push(format!("{:.2}", self.desk / before));
        }
        println!("| {} |", cells.join(" | "));
    }

    /// What is aimed at for records of this kind.
    fn aims(&self) -> Vec<Aim> {
        let name = self.name;
        let mut aims = Vec::new();
        if let Some(most) = aims::of_record(name) {
            let slower = self.desk / self.arrays;
            aims.push(Aim::at_most(name, "desk / arrays", most, slower));
        }
        let slower = self.feed / self.desk;
        aims.push(Aim::at_most(name, "feed / desk", aims::FEED, slower));
        if name.starts_with("W,") {
            let (slower, faster) = (self.desk / self.lines, self.second / self.desk);
            aims.push(Aim::at_most(name, "desk / lines", aims::LINES, slower));
            aims.push(Aim::at_least(name, "second / desk", aims::SECOND, faster));
        }
        aims
    }
}

/// The table of starts: each program from its start to its end on no input, the
/// best, the middle and the slowest in milliseconds by the clock. The aims are those
/// of the desk program, by itself and by its script.
fn starts(options: &Options, mut versions: Vec<Version>, file: &Path) -> io::Result<Vec<Aim>> {
    fs::write(file, "")?;
    versions.extend(options.script.iter().map(|script| Version {
        name: "desk, by its script",
        command: vec![script.clone()],
    }));
    let mut times = vec![Vec::new(); versions.len()];
    for _ in 0..STARTS {
        for (version, times) in versions.iter().zip(&mut times) {
            let start = Instant::now();
            run(&version.command, file)?;
            times.push(start.elapsed().as_secs_f64() * 1e3);
        }
    }
    println!("| {START} | best ms | middle ms | slowest ms |");
    println!("|---|--:|--:|--:|");
    let mut aims = Vec::new();
    for (version, mut times) in versions.iter().zip(times) {
        times.sort_by(f64::total_cmp);
        let [best, middle, last] = [0, STARTS / 2, STARTS - 1].map(|place| times[place]);
        println!("| {} | {best:.1} | {middle:.1} | {last:.1} |", version.name);
        if version.name.starts_with("desk") {
            aims.push(Aim::start(version.name, middle));
        }
    }
    Ok(aims)
}

fn chart(rows: &[Times]) -> Chart {
    let bar = |row: &Times| Bar {
        name: row.name.into(),
        ratio: row.desk / row.arrays,
        aim: aims::of_record(row.name),
    };
    Chart {
        title: "Records of the desk program".into(),
        subtitle: "Processor time of a record, compared with a desk in plain Rust on arrays. Shorter is faster."
            .into(),
        axis: "times the time of the arrays".into(),
        bars: rows.iter().map(bar).collect(),
    }
}

/// One run of a program on a file.
fn run(words: &[String], file: &Path) -> io::Result<()> {
    let status = command(words, file)?.stdout(Stdio::null()).status()?;
    if !status.success() {
        return Err(io::Error::other(format!("{} failed", words[0])));
    }
    Ok(())
}

/// Fails unless the desks write the same, and refuse what they should.
fn agree(session: &Session, versions: &[Version], file: &Path) -> io::Result<()> {
    let mut first = None;
    for version in versions.iter().filter(|version| version.name != "lines") {
        let written = command(&version.command, file)?.output()?.stdout;
        let expected = first.get_or_insert_with(|| written.clone());
        if written != *expected {
            let why = format!("{} writes something else at {}", version.name, session.name);
            return Err(io::Error::other(why));
        }
    }
    let written = first.unwrap_or_default();
    let replies = written.split(|byte| *byte == b'\n');
    let refused = replies.filter(|reply| reply.starts_with(b"no")).count();
    if refused != session.refused {
        let why = format!("{refused} refusals at {}", session.name);
        return Err(io::Error::other(why));
    }
    Ok(())
}

fn command(words: &[String], file: &Path) -> io::Result<Command> {
    let mut command = Command::new(&words[0]);
    command.args(&words[1..]).stdin(File::open(file)?);
    Ok(command)
}
