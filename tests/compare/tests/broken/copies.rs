//! Copies of the reference program, spoiled by an edit or as they are, and runs of
//! `compare` on them.

use std::fs;
use std::path::{Path, PathBuf};
use std::process::{Command, Output};

pub fn here() -> PathBuf {
    PathBuf::from(env!("CARGO_MANIFEST_DIR"))
}

/// The places of an edit, of which there is mostly one: file, old text and new text.
fn places(edit: &str) -> Vec<&str> {
    let mut places = edit.split("--- file\n");
    places.next().expect("what is spoiled comes first");
    places.collect()
}

/// The parts of one place, each up to the next heading: file, old text and new text.
fn parts(place: &str) -> [&str; 3] {
    let (file, rest) = place.split_once("--- old\n").expect("an old text");
    let (old, new) = rest.split_once("--- new").expect("a new text");
    [file, old, new].map(|part| part.trim_matches('\n'))
}

/// Copies the sources of the reference, as a workspace of their own.
fn copy_reference(target: &Path) {
    let source = here().join("../reference");
    let _ = fs::remove_dir_all(target.join("src"));
    fs::create_dir_all(target.join("src")).unwrap();
    let manifest = fs::read_to_string(source.join("Cargo.toml")).unwrap();
    fs::write(target.join("Cargo.toml"), manifest + "\n[workspace]\n").unwrap();
    for entry in fs::read_dir(source.join("src")).unwrap() {
        let path = entry.unwrap().path();
        fs::copy(&path, target.join("src").join(path.file_name().unwrap())).unwrap();
    }
}

fn apply(edit: &str, target: &Path) {
    let places = places(edit);
    assert!(!places.is_empty(), "an edit has a place");
    for [file, old, new] in places.into_iter().map(parts) {
        let file = target.join(file);
        let text = fs::read_to_string(&file).unwrap();
        let times = text.matches(old).count();
        assert_eq!(times, 1, "the old text is there {times} times: {old}");
        fs::write(&file, text.replacen(old, new, 1)).unwrap();
    }
}

/// Builds a copy of the reference, spoiled by the edit of this name if it is
/// to be, and gives the path of its program. Here a fast build is worth more
/// than a fast program, so it is not optimised; and an edit may leave a
/// function without a use, so a warning is no error.
pub fn build(name: &str, edited: bool) -> PathBuf {
    let target = PathBuf::from(env!("CARGO_TARGET_TMPDIR")).join(name);
    copy_reference(&target);
    if edited {
        let edit = here().join("broken").join(format!("{name}.edit"));
        apply(&fs::read_to_string(edit).unwrap(), &target);
    }
    let built = Command::new(env!("CARGO"))
        .args(["build", "--offline", "--quiet"])
        .arg("--target-dir")
        .arg(target.join("target"))
        .env_remove("RUSTFLAGS")
        .current_dir(&target)
        .output()
        .unwrap();
    let said = String::from_utf8_lossy(&built.stderr);
    assert!(built.status.success(), "{said}");
    target.join("target/debug/reference")
}

/// Runs the program `compare` on a desk program.
pub fn compare(arguments: &[&str], desk: &[&str]) -> Output {
    Command::new(env!("CARGO_BIN_EXE_compare"))
        .args(arguments)
        .arg("--")
        .args(desk)
        .output()
        .unwrap()
}

pub fn cases() -> String {
    here().join("../cases").to_str().unwrap().to_string()
}

/// The numbers of the last line, after a look at the exit status.
pub fn counts(output: &Output) -> (usize, usize) {
    let text = String::from_utf8_lossy(&output.stdout).to_string();
    let last = text.lines().last().expect("a last line");
    let numbers = last.strip_suffix(" failed").expect("the last line");
    let (passed, failed) = numbers.split_once(" passed, ").expect("the last line");
    let counts = (passed.parse().unwrap(), failed.parse().unwrap());
    assert_eq!(output.status.success(), counts.1 == 0, "{text}");
    counts
}

/// The failures on the cases, and those on a few sessions.
pub fn failures(desk: &Path) -> (usize, usize) {
    let desk = [desk.to_str().unwrap()];
    // Making the faults small takes its time, and their number is enough.
    let on_cases = compare(&["--details", "0", "--cases", &cases()], &desk);
    let on_seeds = compare(&["--details", "0", "--seeds", "0..36"], &desk);
    let (on_cases, on_seeds) = (counts(&on_cases), counts(&on_seeds));
    (on_cases.1, on_seeds.1)
}

/// The same, told to whoever looks at the output of the tests.
fn failures_told(name: &str, desk: &Path) -> (usize, usize) {
    let (on_cases, on_seeds) = failures(desk);
    println!("{name}: {on_cases} cases, {on_seeds} sessions");
    (on_cases, on_seeds)
}

/// Builds a copy that has to be found by the cases and by the sessions.
pub fn is_found(name: &str) -> PathBuf {
    let desk = build(name, true);
    let (on_cases, on_seeds) = failures_told(name, &desk);
    assert!(on_cases > 0, "{name} is not found by the cases");
    assert!(on_seeds > 0, "{name} is not found by the sessions");
    desk
}

/// The same of a copy that has to be found by several cases and by several sessions,
/// since all sessions bring what it does wrong.
pub fn is_found_often(name: &str) -> PathBuf {
    let desk = build(name, true);
    let (on_cases, on_seeds) = failures_told(name, &desk);
    assert!(on_cases > 1, "{name} is found by {on_cases} cases");
    assert!(on_seeds > 3, "{name} is found by {on_seeds} sessions");
    desk
}

/// The pairs of sessions in which a station can tell the sides apart.
fn leaking_pairs(desk: &Path) -> usize {
    let arguments = ["--details", "0", "--pairs", "0..40"];
    counts(&compare(&arguments, &[desk.to_str().unwrap()])).1
}

/// The same of a copy that lets a station see what it may not read.
pub fn leaks(name: &str) {
    is_leaking(name, &is_found(name));
}

/// The same of one that is found often.
pub fn leaks_often(name: &str) {
    is_leaking(name, &is_found_often(name));
}

fn is_leaking(name: &str, desk: &Path) {
    let leaking = leaking_pairs(desk);
    assert!(leaking > 0, "{name} is not found by the pairs");
}

/// The same of a copy that is wrong and yet keeps what a station may not read to
/// itself: the pairs have to pass.
pub fn keeps_quiet(name: &str) {
    let leaking = leaking_pairs(&is_found(name));
    assert_eq!(leaking, 0, "{name} is found by the pairs");
}

/// A directory with this one case in it, and nothing else.
pub fn one_case(directory: &str, name: &str) -> PathBuf {
    let target = PathBuf::from(env!("CARGO_TARGET_TMPDIR")).join(directory);
    let _ = fs::remove_dir_all(&target);
    fs::create_dir_all(&target).unwrap();
    for end in ["in", "out"] {
        let file = format!("{name}.{end}");
        fs::copy(Path::new(&cases()).join(&file), target.join(&file)).unwrap();
    }
    target
}
