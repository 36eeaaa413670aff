//! Tables of pairs beside the bytes of L (E10), on plans that were typed or made by
//! X, F, I and K: with the same action they are no shorter and their from-words each
//! begin with a listed one, and typed they are listed so again; changed ones act
//! otherwise, by S too. What each plan does is worked out without any desk.

use library::checks::tables::can_be_typed;
use library::checks::tally::Tally;
use library::listed::Listed;
use library::packed::Row;
use library::random::bases::{every_shape, splits_within};
use library::random::tables::{changed, split, CHANGES};
use library::random::{families, plans};
use reference::maps::{self, Pairs};
use reference::tables::{image, telling_code};
use reference::{exercise, Shape, PAIRS};

use super::side_by_side::AMPLE;
use crate::calls::Calls;
use crate::random::Rng;
use crate::values::Desk;

/// The slot for tables that are typed beside the others.
const BESIDE: char = 'H';

/// A desk, and who is asked to work on it.
struct Asked<'a> {
    calls: &'a dyn Calls,
    desk: Desk,
}

impl Asked<'_> {
    fn new(calls: &dyn Calls) -> Asked<'_> {
        Asked {
            calls,
            desk: calls.fresh(),
        }
    }

    /// The reply to a line, or the number of its refusal.
    fn reply(&mut self, line: &str) -> Result<String, u8> {
        let mut out = [0; AMPLE];
        let written = self.calls.line(&mut self.desk, line.as_bytes(), &mut out);
        match written.number {
            0 => Ok(String::from_utf8_lossy(&out[..written.length]).into_owned()),
            number => Err(number),
        }
    }

    /// The reply to E behind a plan of these pairs.
    fn typed(&mut self, slot: char, shape: Shape, rows: &[Row]) -> Result<String, u8> {
        let Shape { arity, roots } = shape;
        let opened = self.reply(&format!("P\t{slot}\t{arity}\t{roots}"));
        assert_eq!(opened, Ok(String::new()), "to P");
        for (from, to) in rows {
            let [from, to] = [from, to].map(|word| String::from_utf8_lossy(word));
            let added = self.reply(&format!("M\t{from}\t{to}"));
            assert_eq!(added, Ok(String::new()), "to M");
        }
        self.reply("E")
    }

    fn listed(&mut self, slot: char) -> Listed {
        let listing = self.reply(&format!("L\t{slot}")).expect("a held slot");
        Listed::read(listing.as_bytes())
    }
}

/// The slot of a plan, the record that made it, and a table with the action that it
/// should have.
type Case = (char, &'static str, Vec<Row>);

/// Makes plans of the shape by each record that makes one, where it is granted.
fn cases(asked: &mut Asked, rng: &mut Rng, shape: Shape) -> Vec<Case> {
    let small = splits_within(shape, 40).min(4);
    let splits = [(); 2].map(|()| rng.below(small + 1));
    let [one, other] = splits.map(|splits| plans::paired(rng, shape, splits));
    let typed = match families::to_belts(shape) {
        Some(rows) if rng.chance(50) => rows,
        _ => plans::rows(rng, shape),
    };
    let mut cases: Vec<Case> = vec![('A', "E", one), ('B', "E", other), ('C', "E", typed)];
    for (slot, _, rows) in &cases {
        asked.typed(*slot, shape, rows).expect("two bases");
    }
    for (line, slot, record, rows) in made(rng, shape, [&cases[0].2, &cases[1].2]) {
        match asked.reply(&line) {
            Ok(_) => cases.push((slot, record, rows)),
            Err(number) => assert!([4, 5, 11].contains(&number), "{number} to {line}"),
        }
    }
    cases
}

/// A line that makes a plan, with its slot and its record, and what the plan does.
type Making = (String, char, &'static str, Vec<Row>);

/// X, and F, I and K of the plans in A and B.
fn made(rng: &mut Rng, shape: Shape, operands: [&[Row]; 2]) -> [Making; 4] {
    let [a, b] = operands.map(|rows| rows.iter().cloned().collect::<Pairs>());
    let Shape { arity, roots } = shape;
    let splits = rng.below(splits_within(shape, 60) + 1) as u8;
    let seed = 1 + rng.below(1 << 30) as u64;
    let line = format!("X\tD\t{arity}\t{roots}\t{splits}\t{seed}");
    let rows = |pairs: Pairs| -> Vec<Row> { pairs.into_iter().collect() };
    [
        (line, 'D', "X", exercise::unreduced(shape, splits, seed)),
        ("F\tA\tB\tE".into(), 'E', "F", rows(maps::then(&a, &b))),
        ("I\tA\tF".into(), 'F', "I", rows(maps::inverse(&a))),
        ("K\tA\t2\tG".into(), 'G', "K", rows(maps::then(&a, &a))),
    ]
}

/// Tables with the action of a plan, many of them beyond the limits; the others are
/// typed.
pub fn beside_listings(calls: &dyn Calls) {
    let mut rng = Rng::new(801);
    let mut tally = Tally::default();
    for shape in every_shape() {
        let mut asked = Asked::new(calls);
        for (slot, record, unjoined) in cases(&mut asked, &mut rng, shape) {
            let listed = asked.listed(slot);
            assert_eq!(listed.shape, shape, "the shape of {listed}");
            listed.assert_acts_as(&unjoined);
            let joined = maps::reduce(shape, unjoined.iter().cloned().collect());
            let joined: Vec<Row> = joined.into_iter().collect();
            let many = splits_within(shape, 2 * PAIRS);
            for (rows, splits, deep) in [
                (&joined, 0, false),
                (&joined, rng.between(1, 4), false),
                (&unjoined, rng.below(3), false),
                (&listed.rows, rng.between(many, 2 * many), false),
                (&listed.rows, rng.between(16, 40), true),
            ] {
                let table = split(&mut rng, shape, rows, splits, deep);
                listed.assert_acts_as(&table);
                listed.assert_not_longer_than(&table);
                compare(&mut asked, slot, &listed, &table, &mut tally);
            }
            listed.assert_nothing_above(&unjoined);
            tally.count(record);
        }
    }
    tally.demand(60, &["E", "X", "F", "I", "K"]);
    tally.demand(300, &["typed", "beyond the limits"]);
}

/// A table that acts as the plan in this slot does, typed where that can be.
fn compare(asked: &mut Asked, slot: char, listed: &Listed, table: &[Row], tally: &mut Tally) {
    if !can_be_typed(table) {
        tally.count("beyond the limits");
        return;
    }
    let kept = asked.typed(BESIDE, listed.shape, table);
    let pairs = format!("ok\t{}\n", listed.rows.len());
    assert_eq!(kept, Ok(pairs), "to E beside {listed}");
    let again = asked.listed(BESIDE);
    assert_eq!(&again, listed, "a table that acts alike is kept as another");
    let same = asked.reply(&format!("S\t{slot}\t{BESIDE}"));
    assert_eq!(same, Ok("ok\t1\n".into()), "to S beside {listed}");
    tally.count("typed");
}

/// Changed tables: a code tells each from the listing, W sends that code where the
/// listing does, and where the table can be kept S says that it acts otherwise.
pub fn that_act_otherwise(calls: &dyn Calls) {
    let mut rng = Rng::new(802);
    let mut tally = Tally::default();
    for shape in every_shape() {
        let mut asked = Asked::new(calls);
        for (slot, _, unjoined) in cases(&mut asked, &mut rng, shape) {
            let listed = asked.listed(slot);
            listed.assert_acts_as(&unjoined);
            for change in CHANGES {
                let splits = rng.below(4);
                let table = split(&mut rng, shape, &listed.rows, splits, false);
                if let Some(after) = changed(&mut rng, shape, &table, change) {
                    tell_apart(&mut asked, slot, &listed, &after, &mut tally);
                }
            }
        }
    }
    tally.demand(200, &["told", "kept", "no basis"]);
}

fn tell_apart(asked: &mut Asked, slot: char, listed: &Listed, table: &[Row], tally: &mut Tally) {
    let code = telling_code(listed.shape, &listed.rows, table);
    let code = code.unwrap_or_else(|| panic!("nothing tells {table:?} from {listed}"));
    let images = [&listed.rows, table].map(|rows| {
        let image = image(rows, &code).expect("it is long enough for both");
        String::from_utf8_lossy(&image).into_owned()
    });
    assert_ne!(images[0], images[1], "{code:?} goes to one place");
    let text = String::from_utf8_lossy(&code);
    let routed = asked.reply(&format!("W\t{slot}\t{text}"));
    let reply = ok_line(&images[0], listed, &code);
    assert_eq!(routed, Ok(reply), "to W of {text}");
    tally.count("told");
    if !can_be_typed(table) {
        return;
    }
    match asked.typed(BESIDE, listed.shape, table) {
        Err(number) => {
            assert!([6, 7].contains(&number), "{number} to E of {table:?}");
            tally.count("no basis");
        }
        Ok(_) => {
            let routed = asked.reply(&format!("W\t{BESIDE}\t{text}"));
            let reply = ok_line(&images[1], &asked.listed(BESIDE), &code);
            assert_eq!(routed, Ok(reply), "to W of {text}");
            let same = asked.reply(&format!("S\t{slot}\t{BESIDE}"));
            assert_eq!(same, Ok("ok\t0\n".into()), "to S beside {listed}");
            tally.count("kept");
        }
    }
}

/// W's reply: the image, and which of the listed pairs begins the code.
fn ok_line(image: &str, listed: &Listed, code: &[u8]) -> String {
    let begins = |(from, _): &Row| code.starts_with(from);
    let place = listed.rows.iter().position(begins);
    let place = 1 + place.expect("a listed from-word begins the code");
    format!("ok\t{image}\t{place}\n")
}
