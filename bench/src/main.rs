//! The benchmark: the proved library through its static library, the version on
//! arrays and the second implementation, on the same data in one run. All three
//! must agree before they are measured. It prints a table in Markdown and whether
//! the aims are reached, and draws a chart where it is asked to.

use std::fs;
use std::process::ExitCode;

use bench::aims::{self, Aim};
use bench::arrays::Arrays;
use bench::chart::{Bar, Chart};
use bench::measure::microseconds;
use bench::options::Options;
use bench::work::{jobs, Job};
use library::{Calls, Library, Second};

const USAGE: &str = "usage: bench [--only WORDS].. [--chart FILE]";

fn main() -> ExitCode {
    let options = Options::read(std::env::args().skip(1));
    let Some(options) = options.filter(Options::has_no_program) else {
        eprintln!("{USAGE}");
        return ExitCode::FAILURE;
    };
    let bars = table(&options);
    let aims: Vec<Aim> = bars.iter().map(aim).collect();
    println!("\n{}", aims::report(&aims).trim_end());
    if let Some(file) = &options.chart {
        if let Err(error) = fs::write(file, chart(bars).svg()) {
            eprintln!("bench: {}: {error}", file.display());
            return ExitCode::FAILURE;
        }
    }
    ExitCode::SUCCESS
}

/// Prints the table and gives its ratios to the arrays.
fn table(options: &Options) -> Vec<Bar> {
    println!(
        "| call | library µs | arrays µs | reference µs | library / arrays | reference / library |"
    );
    println!("|---|--:|--:|--:|--:|--:|");
    let mut bars = Vec::new();
    for job in jobs().into_iter().filter(|job| options.wants(&job.name)) {
        agree(&job);
        let versions: [&dyn Calls; 3] = [&Library, &Arrays, &Second];
        let [library, arrays, reference] = microseconds(&job, &versions);
        println!(
            "| {} | {} | {} | {} | {} | {} |",
            job.name,
            rounded(library),
            rounded(arrays),
            rounded(reference),
            rounded(library / arrays),
            rounded(reference / library)
        );
        bars.push(Bar {
            aim: Some(aims::of_call(&job.name)),
            name: job.name,
            ratio: library / arrays,
        });
    }
    bars
}

fn aim(bar: &Bar) -> Aim {
    let most = aims::of_call(&bar.name);
    Aim::at_most(&bar.name, "library / arrays", most, bar.ratio)
}

fn chart(bars: Vec<Bar>) -> Chart {
    Chart {
        title: "Calls of the library of plans".into(),
        subtitle: "Time of a call, compared with plain Rust on arrays. Shorter is faster.".into(),
        axis: "times the time of the arrays".into(),
        bars,
    }
}

/// Fails unless all versions answer every task of the job alike.
fn agree(job: &Job) {
    for task in &job.tasks {
        let expected = task.answer(&Second);
        assert_eq!(
            task.answer(&Library),
            expected,
            "the library at {}",
            job.name
        );
        assert_eq!(task.answer(&Arrays), expected, "the arrays at {}", job.name);
    }
}

/// Three digits that count, or all of a larger number.
fn rounded(number: f64) -> String {
    match number {
        n if n >= 100.0 => format!("{n:.0}"),
        n if n >= 10.0 => format!("{n:.1}"),
        n if n >= 1.0 => format!("{n:.2}"),
        n => format!("{n:.3}"),
    }
}
