//! A pair of sessions from a seed. Both sides are written at once beside a desk each.
//! In a round, other stations do what they like, on each side something else; then
//! the rights of the observed station and the slots that it may read are made alike;
//! then others send what it can't see, again on each side something else; and then
//! comes its turn, with the same records on both sides.

use reference::{Desk, Plan, Right};
use sessions::Rng;

use super::{records, Pair, Side};

/// The pair of a seed. Each station is observed, 0 less often.
pub fn pair(seed: u64) -> Pair {
    let mut rng = Rng::new(seed);
    let station = match rng.chance(12) {
        true => 0,
        false => rng.between(1, 7) as u8,
    };
    let mut maker = Maker {
        rng,
        aside: Rng::new(!seed),
        station,
        keeper: if station == 0 { 7 } else { 0 },
        sides: Default::default(),
        desks: Default::default(),
    };
    maker.begin();
    for _ in 0..maker.rng.between(3, 7) {
        maker.round();
    }
    let sides = maker.sides;
    Pair { station, sides }
}

struct Maker {
    rng: Rng,
    /// The chance of what stands between the records, which thus are the same with it
    /// and without it.
    aside: Rng,
    station: u8,
    /// The station that makes the sides alike, with all rights. Where station 0 is
    /// observed, it is station 7, which no gift is for then.
    keeper: u8,
    sides: [Side; 2],
    desks: [Desk; 2],
}

/// What the observed station can see of a desk: its rights, and the plans in the
/// slots that it may read.
fn view(desk: &Desk, station: u8) -> Vec<(Right, Option<Plan>)> {
    let rights = desk.stations().rights();
    let seen = (b'A'..=b'H').map(|slot| match rights.of(station, slot) {
        Right::Nothing => (Right::Nothing, None),
        right => (right, desk.plan(slot).cloned()),
    });
    seen.collect()
}

impl Maker {
    /// "Before the first [Z], it is station 0", so that the first Z is a record of
    /// station 0, and the whole turn of it if it is observed.
    fn begin(&mut self) {
        for side in 0..2 {
            self.name(side, self.keeper);
            if self.station == 0 {
                let end = self.sides[side].input.len();
                self.sides[side].turns.push(0..end);
            }
        }
    }

    fn round(&mut self) {
        for side in 0..2 {
            for _ in 0..self.rng.below(4) {
                self.free_turn(side);
            }
        }
        self.make_alike();
        for side in 0..2 {
            for _ in 0..self.rng.below(3) {
                self.unseen_turn(side);
            }
        }
        self.observed_turn();
    }

    /// Sends lines on one side.
    fn send(&mut self, side: usize, lines: &[u8]) {
        self.sides[side].input.extend(lines);
        self.desks[side].feed(lines, &mut Vec::new());
    }

    /// Names a station on one side, where no plan is open.
    fn name(&mut self, side: usize, station: u8) {
        assert!(self.desks[side].open_plan().is_none(), "a turn is whole");
        self.send(side, format!("Z\t{station}\n").as_bytes());
    }

    /// Any station but the observed one.
    fn other_station(&mut self) -> u8 {
        let station = self.rng.below(7) as u8;
        if station < self.station {
            station
        } else {
            station + 1
        }
    }

    /// The records of another station, or of station 0 a gift now and then.
    fn others_records(&mut self, station: u8) -> Vec<u8> {
        match self.rng.chance(if station == 0 { 40 } else { 8 }) {
            true => records::gift(&mut self.rng),
            false => records::some(&mut self.rng, &mut |rng| b'A' + rng.below(8) as u8),
        }
    }

    /// A turn of another station on one side, which may do anything.
    fn free_turn(&mut self, side: usize) {
        let station = self.other_station();
        self.name(side, station);
        for _ in 0..self.rng.between(1, 8) {
            let lines = self.others_records(station);
            self.send(side, &lines);
            if self.aside.chance(10) {
                self.send(side, b"H\n");
            }
        }
    }

    /// A turn of another station on one side that leaves what the observed one can
    /// see. Records that wouldn't are not sent.
    fn unseen_turn(&mut self, side: usize) {
        let station = self.other_station();
        self.name(side, station);
        for _ in 0..self.rng.between(1, 10) {
            let lines = self.others_records(station);
            let mut after = self.desks[side].clone();
            after.feed(&lines, &mut Vec::new());
            if view(&after, self.station) == view(&self.desks[side], self.station) {
                self.send(side, &lines);
            }
        }
    }

    /// Makes the rights of the observed station and what it may read alike on both
    /// sides; what it may not read stays as it is.
    fn make_alike(&mut self) {
        (0..2).for_each(|side| self.name(side, self.keeper));
        for slot in b'A'..=b'H' {
            let right = self.alike_right(slot);
            if right == Right::Nothing {
                continue;
            }
            let model = self.rng.below(2);
            let plan = match self.rng.chance(15) {
                true => None,
                false => self.desks[model].plan(slot).cloned(),
            };
            for side in 0..2 {
                let held = self.desks[side].plan(slot).cloned();
                match &plan {
                    plan if *plan == held => {}
                    Some(plan) => self.send(side, &plan.list(slot)),
                    None => self.send(side, format!("C\t{}\n", char::from(slot)).as_bytes()),
                }
            }
        }
        let views = [0, 1].map(|side| view(&self.desks[side], self.station));
        assert_eq!(views[0], views[1], "the sides look alike");
    }

    /// Gives the observed station a right on a slot, the same on both sides, where it
    /// hasn't got it; sometimes another one first.
    fn alike_right(&mut self, slot: u8) -> Right {
        if self.station == 0 {
            return Right::ReadAndWrite;
        }
        let model = self.rng.below(2);
        let right = match self.rng.chance(30) {
            true => *self.rng.pick(&Right::ALL),
            false => self.desks[model].stations().rights().of(self.station, slot),
        };
        let gift = |station: u8, right: Right| {
            let number = right.number();
            format!("G\t{station}\t{}\t{number}\n", char::from(slot)).into_bytes()
        };
        for side in 0..2 {
            if self.rng.chance(10) {
                let first = *self.rng.pick(&Right::ALL);
                self.send(side, &gift(self.station, first));
            }
            if self.desks[side].stations().rights().of(self.station, slot) != right {
                self.send(side, &gift(self.station, right));
            }
        }
        right
    }

    /// The turn of the observed station, with the same records on both sides. Its
    /// last is the Z for the next station.
    fn observed_turn(&mut self) {
        (0..2).for_each(|side| self.name(side, self.station));
        let start = [0, 1].map(|side| self.sides[side].input.len());
        for _ in 0..self.rng.between(3, 14) {
            let lines = [self.between_records(), self.observed_records()].concat();
            (0..2).for_each(|side| self.send(side, &lines));
        }
        for side in 0..2 {
            self.name(side, self.keeper);
            let end = self.sides[side].input.len();
            self.sides[side].turns.push(start[side]..end);
        }
    }

    /// Between them it asks for the pairs held now and then, or follows a plan that it
    /// may not read by one that it may, into a slot that it may write.
    fn between_records(&mut self) -> Vec<u8> {
        match self.aside.below(20) {
            0..=3 => b"H\n".to_vec(),
            4 | 5 => self.following_hidden().unwrap_or_default(),
            _ => Vec::new(),
        }
    }

    /// The sides look alike to it, so that the first tells for both.
    fn following_hidden(&mut self) -> Option<Vec<u8>> {
        let desk = &self.desks[0];
        let right = |slot: &u8| desk.stations().rights().of(self.station, *slot);
        let slots = |fits: &dyn Fn(&u8) -> bool| (b'A'..=b'H').filter(fits).collect();
        let hidden: Vec<u8> = slots(&|slot| right(slot) == Right::Nothing);
        let readable: Vec<u8> =
            slots(&|slot| right(slot) > Right::Nothing && desk.plan(*slot).is_some());
        let writable: Vec<u8> = slots(&|slot| right(slot) == Right::ReadAndWrite);
        if hidden.is_empty() || readable.is_empty() || writable.is_empty() {
            return None;
        }
        let [a, b, c] =
            [&hidden, &readable, &writable].map(|slots| char::from(*self.aside.pick(slots)));
        Some(format!("F\t{a}\t{b}\t{c}\n").into_bytes())
    }

    /// Its records name slots of all kinds, and now and then one that there isn't.
    fn observed_records(&mut self) -> Vec<u8> {
        let gives = self.rng.chance(if self.station == 0 { 25 } else { 6 });
        if gives {
            let gift = records::gift(&mut self.rng);
            let spared = self.station == 0 && gift.starts_with(b"G\t7");
            return if spared { b"U\n".to_vec() } else { gift };
        }
        records::some(&mut self.rng, &mut |rng| match rng.chance(3) {
            true => b'I',
            false => b'A' + rng.below(8) as u8,
        })
    }
}
