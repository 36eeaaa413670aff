//! The blocks of W (change request E1) on random plans of all shapes: their
//! lines by looking at every pair, and again as the images of the parts; the
//! codes beside them that have no block; and what the lines say of codes that
//! *a then b* moves. All kinds of codes are counted.

use std::collections::{BTreeMap, BTreeSet};

use reference::{Desk, Placed, Plan, Refusal, Routed, Shape, Stations, Word};

use crate::random::{shapes, Random};

type Rows = Vec<(Word, Word)>;

/// Every front of every from-word: its proper beginnings, from the belt on.
fn fronts(plan: &Plan) -> BTreeSet<Word> {
    let of_word =
        |from: &Word| -> Vec<Word> { (1..from.len()).map(|n| from[..n].into()).collect() };
    plan.pairs().keys().flat_map(of_word).collect()
}

/// What a desk with this plan in A and that in B replies to the records.
fn replies(a: &Plan, b: &Plan, records: &[u8]) -> Vec<u8> {
    let slots = BTreeMap::from([(b'A', a.clone()), (b'B', b.clone())]);
    let mut out = Vec::new();
    Desk::with_contents(slots, None, Stations::default()).feed(records, &mut out);
    out
}

/// The reply to W of this code in A.
fn reply(plan: &Plan, code: &[u8]) -> Vec<u8> {
    replies(plan, plan, &[b"W\tA\t", code, b"\n"].concat())
}

/// The lines that a block of these pairs has, each with its place, closed by how
/// many they are.
fn written(rows: &[(usize, (&Word, &Word))]) -> Vec<u8> {
    let line = |(place, (from, to)): &(usize, (&Word, &Word))| {
        let place = place.to_string();
        let fields = [b"B", from.as_slice(), to, place.as_bytes()];
        [fields.join(&b'\t'), b"\n".to_vec()].concat()
    };
    let lines: Vec<u8> = rows.iter().flat_map(line).collect();
    [lines, format!("ok\t{}\n", rows.len()).into_bytes()].concat()
}

#[test]
fn blocks_by_looking_at_every_pair() {
    let mut random = Random::new(41);
    let (mut blocks, mut belts, mut large) = (0, 0, 0);
    for shape in shapes() {
        for _ in 0..6 {
            let size = random.size();
            let plan = random.plan(shape, size);
            for front in fronts(&plan) {
                let mut rows: Vec<_> = (1..).zip(plan.pairs()).collect();
                rows.retain(|(_, (from, _))| from.starts_with(&front));
                assert!(rows.iter().is_sorted_by_key(|(_, pair)| pair));
                assert_eq!(reply(&plan, &front), written(&rows));
                assert_eq!(plan.route(&front), Err(Refusal::CodeTooShort));
                blocks += 1;
                belts += usize::from(front.len() == 1);
                large += usize::from(rows.len() > 40);
            }
        }
    }
    assert!(
        blocks > 2000 && belts > 300 && large > 100,
        "{blocks} {belts} {large}"
    );
}

/// "Such a word does have an image, namely the images of its parts": a part
/// that is a from-word has one line, and any other the lines of its own block.
#[test]
fn a_block_is_the_images_of_its_parts() {
    let mut random = Random::new(42);
    let mut parted = 0;
    for shape in shapes() {
        for _ in 0..6 {
            let plan = random.plan(shape, 60);
            for front in fronts(&plan) {
                let parts = shape.parts(&front).into_iter();
                let rows = parts.flat_map(|part| part_rows(&plan, part)).collect();
                assert_eq!(plan.route_or_block(&front), Ok(Routed::Block(rows)));
                parted += 1;
            }
        }
    }
    assert!(parted > 2000, "{parted}");
}

fn part_rows(plan: &Plan, part: Word) -> Vec<Placed> {
    match plan.route_or_block(&part).expect("a code of the shape") {
        Routed::Image(image) => vec![Placed {
            place: image.place,
            from: part,
            to: image.digits,
        }],
        Routed::Block(rows) => rows,
    }
}

/// A from-word and what extends it have images and no block, and 4 comes first
/// for a front with a wrong digit or without any.
#[test]
fn codes_without_a_block() {
    let mut random = Random::new(43);
    for shape in shapes() {
        let plan = random.plan(shape, 40);
        assert_eq!(reply(&plan, b""), b"no\t4\n");
        for (place, (from, to)) in (1..).zip(plan.pairs()) {
            let tail = random.ways(shape, 3);
            for tail in [&b""[..], &tail] {
                let behind = format!("\t{place}\n");
                let image = [b"ok\t", to.as_slice(), tail, behind.as_bytes()].concat();
                assert_eq!(reply(&plan, &[from, tail].concat()), image);
            }
        }
        for mut front in fronts(&plan) {
            let place = random.below(front.len());
            front[place] = *random.pick(b"0:/ x");
            assert_eq!(reply(&plan, &front), b"no\t4\n");
        }
    }
}

/// With one belt all pairs extend it, unless they are one: the block of the
/// belt has the lines of L with B for M, numbered from 1.
#[test]
fn the_block_of_the_only_belt() {
    let mut random = Random::new(44);
    let mut full = 0;
    for arity in 2..=9 {
        for _ in 0..10 {
            let plan = random.plan(Shape { arity, roots: 1 }, 128);
            if plan.size() == 1 {
                continue;
            }
            let listing = String::from_utf8(plan.list(b'A')).expect("a listing is text");
            let rows = listing.lines().filter(|line| line.starts_with('M'));
            let numbered = (1..).zip(rows);
            let lines: String = numbered
                .map(|(place, row)| format!("{}\t{place}\n", row.replacen('M', "B", 1)))
                .collect();
            let expected = format!("{lines}ok\t{}\n", plan.size());
            assert_eq!(reply(&plan, b"1"), expected.as_bytes());
            full += usize::from(plan.size() > 100);
        }
    }
    assert!(full > 10, "{full}");
}

/// The pairs of a block as W writes them; nothing for any other reply.
fn block_rows(reply: &[u8]) -> Option<Rows> {
    let text = std::str::from_utf8(reply).expect("a reply is text");
    let (lines, closing) = text.trim_end().rsplit_once('\n')?;
    let row = |line: &str| match line.split('\t').collect::<Vec<_>>()[..] {
        ["B", from, to, _] => Some((from.into(), to.into())),
        _ => None,
    };
    let rows: Rows = lines.lines().map(row).collect::<Option<_>>()?;
    assert_eq!(closing, format!("ok\t{}", rows.len()));
    Some(rows)
}

/// How many codes were looked at, and why the others weren't.
#[derive(Default, Debug)]
struct Seen {
    moved: usize,
    over_1024: usize,
    short_for_a: usize,
    short_for_b: usize,
}

/// "Where W gives such a block for a kept a then b, every code of any length
/// that extends the front, is long enough for a and has an image under a long
/// enough for b begins with exactly one from-word of the lines, and that line's
/// to-word with the tail is b's image of a's image."
#[test]
fn blocks_of_a_then_b_move_codes_in_turn() {
    let mut random = Random::new(45);
    let (mut blocks, mut seen) = (0, Seen::default());
    for shape in shapes() {
        for _ in 0..12 {
            let sizes = [random.size(), random.size()];
            let [a, b] = sizes.map(|size| random.plan(shape, size));
            let Ok(followed) = a.then(&b) else { continue };
            let fronts: Vec<Word> = fronts(&followed).into_iter().collect();
            for _ in 0..fronts.len().min(6) {
                let front = random.pick(&fronts);
                let records = [b"F\tA\tB\tC\nW\tC\t", front.as_slice(), b"\n"].concat();
                let kept = format!("ok\t{}\n", followed.size());
                let reply = replies(&a, &b, &records);
                let reply = reply.strip_prefix(kept.as_bytes()).expect("F is granted");
                let rows = block_rows(reply).expect("a front has a block");
                blocks += 1;
                for _ in 0..8 {
                    let length = *random.pick(&[1, 2, 4, 8, 16, 32, 1100]);
                    let code = [front.clone(), random.ways(shape, length)].concat();
                    moves_in_turn(&a, &b, &rows, &code, &mut seen);
                }
            }
        }
    }
    assert!(blocks > 1000, "{blocks}");
    let enough = seen.moved > 4000 && seen.over_1024 > 500;
    assert!(
        enough && seen.short_for_a > 100 && seen.short_for_b > 100,
        "{seen:?}"
    );
}

fn moves_in_turn(a: &Plan, b: &Plan, rows: &Rows, code: &[u8], seen: &mut Seen) {
    let Some(middle) = a.image(code) else {
        seen.short_for_a += 1;
        return;
    };
    let Some(image) = b.image(&middle) else {
        seen.short_for_b += 1;
        return;
    };
    let mut beginning = rows.iter().filter(|(from, _)| code.starts_with(from));
    let (from, to) = beginning.next().expect("a line's from-word begins it");
    assert!(beginning.next().is_none(), "no other line's does");
    assert_eq!([to, &code[from.len()..]].concat(), image);
    seen.moved += 1;
    seen.over_1024 += usize::from(code.len() > 1024);
}
