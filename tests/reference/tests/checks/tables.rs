//! The tables of E10 held to what their words say: every code tried, every set of
//! words asked whether it is a basis, every to-word tried. Decisions that look at
//! too little are told from the right one.

use std::collections::BTreeSet;
use std::panic::{catch_unwind, AssertUnwindSafe};

use reference::basis::column_flaw;
use reference::maps;
use reference::tables::{bases, from_is_basis, image, on_column, only_to_word, split};
use reference::tables::{telling_code, Row};
use reference::{Shape, Word, WORD_DIGITS};

use crate::random::{shapes, Random};

const SMALL: [(u8, u8); 6] = [(2, 1), (2, 2), (3, 1), (2, 3), (3, 2), (4, 1)];

fn small_shapes() -> impl Iterator<Item = Shape> {
    let shapes = SMALL.into_iter();
    shapes.map(|(arity, roots)| Shape { arity, roots })
}

/// Every code of up to so many digits, shorter ones first.
fn codes(shape: Shape, digits: usize) -> Vec<Word> {
    let mut all = shape.belts();
    let mut start = 0;
    for _ in 1..digits {
        let longer: Vec<Word> = all[start..].iter().flat_map(|w| shape.parts(w)).collect();
        start = all.len();
        all.extend(longer);
    }
    all
}

/// A table that acts as a small plan does, some of its pairs split.
fn small_table(random: &mut Random, shape: Shape) -> Vec<Row> {
    let typed = random.typed(shape, 7);
    split_some(random, shape, &typed)
}

fn split_some(random: &mut Random, shape: Shape, rows: &[Row]) -> Vec<Row> {
    let mut rows = rows.to_vec();
    for _ in 0..random.below(3) {
        let row = rows.swap_remove(random.below(rows.len()));
        rows.extend(split(&row, shape));
    }
    random.shuffle(&mut rows);
    rows
}

/// The table split further and then changed in one of several ways, or not at all.
fn beside(random: &mut Random, shape: Shape, table: &[Row]) -> Vec<Row> {
    let mut rows = split_some(random, shape, table);
    let (here, there) = (random.below(rows.len()), random.below(rows.len()));
    match random.below(8) {
        0 => rows[here].1 = rows[there].1.clone(),
        1 => drop(rows[here].1.pop()),
        2 => {
            let goal = rows[here].1.clone();
            rows[here].1 = std::mem::replace(&mut rows[there].1, goal);
        }
        3 => rows[here].1 = random.extended(shape, &rows[here].1, rows[here].1.len() + 1),
        4 => drop(rows.swap_remove(here)),
        5 => rows[here].1 = random.code(shape, rows[here].1.len()),
        _ => {}
    }
    rows
}

/// A way to decide whether two tables act alike: a code that tells them apart.
type Decision = fn(Shape, &[Row], &[Row]) -> Option<Word>;

/// Holds a decision to all codes that are a digit longer than any from-word, or
/// shorter.
fn hold(decision: Decision) {
    let mut random = Random::new(51);
    let (mut alike, mut unlike, mut telling) = (0, 0, 0);
    for shape in small_shapes() {
        for _ in 0..150 {
            let one = small_table(&mut random, shape);
            let other = match random.one_in(4) {
                true => small_table(&mut random, shape),
                false => beside(&mut random, shape, &one),
            };
            let digits = one.iter().chain(&other).map(|(from, _)| from.len()).max();
            let codes = codes(shape, digits.unwrap_or(0) + 1);
            let apart = |code: &Word| match (image(&one, code), image(&other, code)) {
                (Some(here), Some(there)) => here != there,
                _ => false,
            };
            let told = codes.iter().filter(|code| apart(code)).count();
            let said = decision(shape, &one, &other);
            assert_eq!(said.is_some(), told > 0, "{shape:?} {one:?} {other:?}");
            assert!(said.is_none_or(|code| apart(&code)), "{one:?} {other:?}");
            telling += told;
            alike += usize::from(told == 0);
            unlike += usize::from(told > 0);
        }
    }
    let kinds = format!("{alike} alike, {unlike} unlike, {telling} codes");
    assert!(alike > 200 && unlike > 400 && telling > 2000, "{kinds}");
}

#[test]
fn the_decision_agrees_with_every_code() {
    hold(telling_code);
}

/// The code among these on which the tables differ, as `differ` sees it.
fn among<'a>(
    codes: impl IntoIterator<Item = &'a Row>,
    [one, other]: [&[Row]; 2],
    differ: fn(&Word, &Word) -> bool,
) -> Option<Word> {
    let mut codes = codes.into_iter().map(|(from, _)| from);
    let apart = |code: &&Word| match (image(one, code), image(other, code)) {
        (Some(here), Some(there)) => differ(&here, &there),
        _ => false,
    };
    codes.find(apart).cloned()
}

/// Decisions that look at the from-words of one table alone, at the first digits of
/// images, at their lengths, at one belt, or at the rows and not at what they do.
const TOO_LITTLE: [(&str, Decision); 6] = [
    ("from-words of the first", |_, one, other| {
        among(one, [one, other], |here, there| here != there)
    }),
    ("from-words of the second", |_, one, other| {
        among(other, [one, other], |here, there| here != there)
    }),
    ("first digits", |_, one, other| {
        let both = one.iter().chain(other);
        among(both, [one, other], |here, there| {
            here.first() != there.first()
        })
    }),
    ("lengths", |_, one, other| {
        let both = one.iter().chain(other);
        among(both, [one, other], |here, there| here.len() != there.len())
    }),
    ("the first belt", |shape, one, other| {
        let found = telling_code(shape, one, other);
        found.filter(|code| code.starts_with(b"1"))
    }),
    ("rows", |shape, one, other| {
        let rows = [one, other].map(|rows| rows.iter().collect::<BTreeSet<_>>());
        let found = telling_code(shape, one, other);
        (rows[0] != rows[1]).then(|| found.unwrap_or_else(|| one[0].0.clone()))
    }),
];

#[test]
fn decisions_that_look_at_too_little_are_seen() {
    for (name, decision) in TOO_LITTLE {
        let said = catch_unwind(AssertUnwindSafe(|| hold(decision)));
        assert!(said.is_err(), "{name}");
    }
}

/// On plans of all shapes it agrees with the decision that S rests on.
#[test]
fn the_decision_agrees_with_that_of_plans() {
    let mut random = Random::new(52);
    let (mut alike, mut unlike) = (0, 0);
    for shape in shapes() {
        for _ in 0..20 {
            let one = random.typed(shape, 40);
            let other = match random.one_in(2) {
                true => split_some(&mut random, shape, &one),
                false => beside(&mut random, shape, &one),
            };
            let told = telling_code(shape, &one, &other).is_some();
            let [one, other] = [one, other].map(|rows| rows.into_iter().collect());
            assert_eq!(maps::act_alike(&one, &other), !told);
            alike += usize::from(!told);
            unlike += usize::from(told);
        }
    }
    assert!(alike > 500 && unlike > 200, "{alike} {unlike}");
}

/// The from-words of a table with nothing in its to column.
fn column_rows(words: &[Word]) -> Vec<Row> {
    let rows = words.iter().map(|word| (word.clone(), Word::new()));
    rows.collect()
}

/// Each is a basis and none is there twice; how many there are is known (the
/// numbers of Fuss and Catalan for one belt).
#[test]
fn bases_by_their_numbers() {
    let expected: [((u8, u8), &[usize]); 6] = [
        ((2, 1), &[1, 1, 2, 5, 14, 42, 132, 429]),
        ((2, 2), &[1, 2, 5, 14, 42, 132]),
        ((3, 1), &[1, 1, 3, 12, 55, 273]),
        ((2, 3), &[1, 3, 9, 28, 90]),
        ((3, 2), &[1, 2, 7, 30, 143]),
        ((4, 1), &[1, 1, 4, 22, 140]),
    ];
    for ((arity, roots), counts) in expected {
        let shape = Shape { arity, roots };
        for (splits, count) in counts.iter().enumerate() {
            let found = bases(shape, splits);
            assert_eq!(found.len(), *count, "{shape:?} {splits}");
            assert_eq!(found.iter().collect::<BTreeSet<_>>().len(), *count);
            let words = usize::from(roots) + splits * usize::from(arity - 1);
            for basis in &found {
                assert_eq!(basis.len(), words);
                assert!(from_is_basis(shape, &column_rows(basis)));
            }
        }
    }
}

/// All sets of words of few digits: those that are bases by the definition of
/// columns are those that splits lead to.
#[test]
fn bases_are_all_that_there_are() {
    for (arity, roots, digits, most) in [(2, 1, 4, 7), (2, 2, 3, 6), (3, 1, 3, 4), (2, 3, 2, 3)] {
        let shape = Shape { arity, roots };
        let words = codes(shape, digits);
        let mut found = BTreeSet::new();
        for chosen in 0u32..1 << words.len() {
            let places = (0..words.len()).filter(|place| chosen >> place & 1 == 1);
            let mut column: Vec<Word> = places.map(|place| words[place].clone()).collect();
            column.sort();
            let is_basis = column_flaw(shape, &column).is_none();
            assert_eq!(from_is_basis(shape, &column_rows(&column)), is_basis);
            if is_basis {
                found.insert(column);
            }
        }
        let split = (0..=most).flat_map(|splits| bases(shape, splits));
        let short = |basis: &Vec<Word>| basis.iter().all(|word| word.len() <= digits);
        assert_eq!(found, split.filter(short).collect(), "{shape:?}");
    }
}

/// Bases with words far beyond 16 digits, and the same with a word left out, there
/// twice, replaced by a part or followed by one, or beside a word of no such shape.
#[test]
fn bases_of_any_depth() {
    let mut random = Random::new(53);
    for shape in shapes() {
        let mut rows = column_rows(&shape.belts());
        for _ in 0..40 {
            let row = rows.pop().expect("a basis has words");
            let mut parts = split(&row, shape);
            random.shuffle(&mut parts);
            rows.extend(parts);
        }
        assert!(rows.iter().any(|(from, _)| from.len() > 2 * WORD_DIGITS));
        assert!(from_is_basis(shape, &rows));
        let last = rows.len() - 1;
        let part = split(&rows[last], shape).remove(0);
        let with = |row: &Row| [&rows[..], &[row.clone()]].concat();
        let replaced = [&rows[..last], &[part.clone()]].concat();
        for other in [rows[..last].to_vec(), with(&rows[0]), with(&part), replaced] {
            assert!(!from_is_basis(shape, &other), "{shape:?}");
        }
        // beside a basis: no belt, a way that the shape hasn't, no digit at all
        for word in [
            vec![b'1' + shape.roots],
            vec![b'1', b'1' + shape.arity],
            vec![],
        ] {
            let row = (word, Word::new());
            assert!(!from_is_basis(shape, &with(&row)), "{shape:?} {row:?}");
        }
    }
}

/// Every to-word tried with every from-word of small tables, the empty one too:
/// only the one that is found acts alike.
#[test]
fn no_other_to_word_acts_alike() {
    let mut random = Random::new(54);
    let (mut found, mut empty, mut none) = (0, 0, 0);
    for shape in small_shapes() {
        for turn in 0..20 {
            let table = match (shape, turn) {
                (Shape { arity: 2, roots: 3 }, 0) => parts_to_belts(),
                _ => random.typed(shape, 6),
            };
            let longest = table
                .iter()
                .map(|(from, to)| from.len().max(to.len()))
                .max();
            let longest = longest.unwrap_or(0).min(4);
            let mut goals = codes(shape, 2 * longest);
            goals.push(Word::new());
            for word in codes(shape, longest) {
                let only = only_to_word(&table, &word);
                let acts = |goal: &Word| {
                    let row = [(word.clone(), goal.clone())];
                    telling_code(shape, &row, &table).is_none()
                };
                let acting: Vec<&Word> = goals.iter().filter(|goal| acts(goal)).collect();
                let expected: Vec<&Word> = only.iter().collect();
                assert_eq!(acting, expected, "{word:?} beside {table:?}");
                found += usize::from(only.as_ref().is_some_and(|goal| !goal.is_empty()));
                empty += usize::from(only.as_ref().is_some_and(|goal| goal.is_empty()));
                none += usize::from(only.is_none());
            }
        }
    }
    assert!(found > 1000 && none > 100, "{found} {empty} {none}");
    assert!(empty > 0);
}

fn rows(typed: &[(&str, &str)]) -> Vec<Row> {
    let rows = typed.iter();
    rows.map(|(from, to)| ((*from).into(), (*to).into()))
        .collect()
}

/// A plan of shape (2, 3): the parts of belt 1 go to belts, and would join if the
/// empty word were a word "of at least a belt".
fn parts_to_belts() -> Vec<Row> {
    rows(&[("11", "1"), ("12", "2"), ("2", "31"), ("3", "32")])
}

/// The table of E10's condition on to-words, worked by hand: with an empty to-word
/// it has a pair less and acts alike on every code that is long enough for both.
#[test]
fn a_shorter_table_with_an_empty_to_word() {
    let shape = Shape { arity: 2, roots: 3 };
    let plan = parts_to_belts();
    let shorter = rows(&[("1", ""), ("2", "31"), ("3", "32")]);
    assert_eq!(telling_code(shape, &plan, &shorter), None);
    assert_eq!(on_column(&plan, &shape.belts(), 0), Some(shorter));
    assert_eq!(on_column(&plan, &shape.belts(), 1), None);
}
