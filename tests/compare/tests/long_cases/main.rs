//! The cases that are too long to write by hand: each is built here from a
//! rule that stands in its comment, without any desk, and the files in
//! `tests/cases` have to hold exactly these bytes. To write the files anew,
//! run this test with WRITE_LONG_CASES set to anything.

mod blocks;
mod case;
mod exercises;
mod lines;
mod pairs_held;
mod places;
mod plans;
mod rights;
mod surveys;

use case::Case;
use std::fs;
use std::path::PathBuf;

fn all() -> Vec<Case> {
    vec![
        plans::kept(),
        plans::joined(),
        plans::too_many(),
        plans::followed_too_far(),
        plans::reduced_in_time(),
        plans::power_in_between(),
        lines::long_codes(),
        lines::long_lines(),
        lines::long_garbage(),
        lines::long_namings(),
        lines::last_line("long-last-line-1100", 1096, "no|9"),
        lines::last_line("long-last-line-1101", 1097, "no|1"),
        lines::last_line("long-last-line-9000", 8996, "no|1"),
        blocks::of_128_pairs(),
        blocks::of_long_words(),
        places::of_128_pairs(),
        places::of_blocks(),
        places::of_rows_typed_in_any_order(),
        places::of_rows_that_join(),
        places::of_results(),
        places::of_exercises(),
        surveys::of_large_plans(),
        exercises::of_every_shape(),
        exercises::of_every_s(),
        exercises::at_the_limits(),
        rights::of_following(),
        rights::of_each_record(),
        rights::of_every_station(),
        pairs_held::of_eight_full_slots(),
        pairs_held::of_open_plans(),
        pairs_held::of_refused_results(),
        pairs_held::of_exercises(),
    ]
}

#[test]
fn the_files_are_the_rules_written_out() {
    let directory = PathBuf::from(env!("CARGO_MANIFEST_DIR")).join("../cases");
    for case in all() {
        let input = directory.join(format!("{}.in", case.name));
        let output = directory.join(format!("{}.out", case.name));
        if std::env::var_os("WRITE_LONG_CASES").is_some() {
            fs::write(&input, &case.input).unwrap();
            fs::write(&output, &case.output).unwrap();
        }
        assert!(fs::read(&input).unwrap() == case.input, "{}", case.name);
        assert!(fs::read(&output).unwrap() == case.output, "{}", case.name);
    }
}

#[test]
fn the_rules_have_the_sizes_they_speak_of() {
    assert_eq!(plans::still().len(), 128);
    assert_eq!(plans::turned_belts(&[1, 2, 3, 4, 5, 6]).len(), 99);
    assert_eq!(plans::phi_everywhere().len(), 108);
    let lines = lines::long_lines().input;
    let lengths: Vec<usize> = lines
        .split(|&byte| byte == b'\n')
        .map(<[u8]>::len)
        .collect();
    assert!(lengths.contains(&1100) && lengths.contains(&1101));
    assert!(lengths.iter().all(|&length| length <= 1101));
    let deep = blocks::deep_rows();
    assert!(deep.len() == 128 && deep.is_sorted());
    assert_eq!(deep.iter().filter(|row| row.0.len() == 16).count(), 112);
    let half = places::half_at_rest();
    assert_eq!((half.typed.len(), half.kept.len()), (128, 66));
    assert!(half.kept.is_sorted() && half.kept[1..65].iter().all(|row| row.0 != row.1));
}

#[test]
fn the_exercises_break_the_limits_they_speak_of() {
    let long = |rows: &[case::Row]| {
        let from = rows.iter().any(|row| row.0.len() > 16);
        (from, rows.iter().any(|row| row.1.len() > 16))
    };
    let broken = exercises::BEYOND.map(|([n, r, s], seed)| {
        let rows = exercises::made(n, r, s, seed);
        let joined = exercises::joined(n, rows.clone());
        let fits = joined.len() <= 128 && !exercises::too_long(&joined);
        (rows.len(), long(&rows), fits)
    });
    let expected = [
        (100, (true, false), false),
        (100, (false, true), false),
        (100, (true, true), false),
        (100, (true, false), true),
        (129, (false, false), false),
        (129, (false, false), true),
        (199, (false, true), false),
    ];
    assert_eq!(broken, expected);
    let deep = exercises::made(2, 1, 99, 42);
    let longest = |column: fn(&case::Row) -> usize| deep.iter().map(column).max();
    assert_eq!(longest(|row| row.0.len()), Some(16));
    assert_eq!(longest(|row| row.1.len()), Some(16));
    assert_eq!(exercises::made(9, 8, 15, 1).len(), 128);
}
