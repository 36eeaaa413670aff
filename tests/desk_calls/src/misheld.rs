//! Calls as a desk answers them that is wrong about the pairs it holds (E8): it moves the
//! sum otherwise, or where nothing is changed, tells it to others, at another time or
//! otherwise, or takes a value whose sum is off. All else is the second implementation's.

use reference::{Record, COUNT_LIMIT};

use crate::calls::Calls;
use crate::second::Second;
use crate::values::{Desk, Done, Job, Written, OPEN};

/// What is wrong with the sum, or with H.
#[derive(Clone, Copy, Debug, PartialEq, Eq)]
pub enum Holding {
    /// What a slot held before stays in the sum.
    OverwrittenLeft,
    /// What C empties stays in the sum.
    EmptiedLeft,
    /// E counts the pairs that were typed.
    TypedCounted,
    /// M counts its pair.
    OpenCounted,
    /// No change moves the stored sum, and H adds the pairs up.
    Stale,
    /// 16 takes the target off.
    MovedByLimit,
    /// 14 takes the target off.
    MovedByShortBuffer,
    /// 11 takes the target off.
    MovedByResult,
    /// Any refusal sets the sum to 0.
    Forgotten,
    /// Every station is told.
    ToldToAll,
    /// Another station is refused with 20.
    RightForStation,
    /// 19 comes before 2.
    StationBeforeTurn,
    /// H leaves an open plan open.
    OpenLeft,
    /// H is answered in an open plan, which stays open.
    ToldWhileOpen,
    /// H counts as a change.
    Counted,
    /// H is refused with 16 where the count is at its limit.
    StoppedByLimit,
    /// H is taken with fields.
    FieldsTaken,
    /// H is refused as a job.
    JobRefused,
    /// A job of H has no value.
    NoValue,
    /// The value of H has one byte.
    OneByte,
    /// A job of H reads a field as the station that asks.
    FieldAsStation,
    /// The sum isn't looked at.
    Unseen,
    /// The low byte of the sum is looked at.
    LowByteSeen,
    /// A sum that is too low is taken.
    TooLowUnseen,
    /// A sum that is too high is taken.
    TooHighUnseen,
    /// A sum of 0 is taken.
    ZeroUnseen,
    /// The pairs of an open plan have to be in the sum.
    OpenInSum,
    /// 15 puts the sum right.
    MendedByNoDesk,
}

pub const HOLDINGS: [Holding; 28] = [
    Holding::OverwrittenLeft,
    Holding::EmptiedLeft,
    Holding::TypedCounted,
    Holding::OpenCounted,
    Holding::Stale,
    Holding::MovedByLimit,
    Holding::MovedByShortBuffer,
    Holding::MovedByResult,
    Holding::Forgotten,
    Holding::ToldToAll,
    Holding::RightForStation,
    Holding::StationBeforeTurn,
    Holding::OpenLeft,
    Holding::ToldWhileOpen,
    Holding::Counted,
    Holding::StoppedByLimit,
    Holding::FieldsTaken,
    Holding::JobRefused,
    Holding::NoValue,
    Holding::OneByte,
    Holding::FieldAsStation,
    Holding::Unseen,
    Holding::LowByteSeen,
    Holding::TooLowUnseen,
    Holding::TooHighUnseen,
    Holding::ZeroUnseen,
    Holding::OpenInSum,
    Holding::MendedByNoDesk,
];

/// What a record is to the sum.
#[derive(Clone, Copy, PartialEq, Eq)]
enum Kind {
    /// It keeps a plan in a slot, by its letter.
    Keeps(u8),
    /// It closes the open plan and keeps it.
    Closes,
    Empties(u8),
    AddsPair,
    Asks,
    Works,
}

impl Kind {
    fn of_line(line: &[u8]) -> Kind {
        match Record::read(line) {
            Ok(Record::Then { target, .. })
            | Ok(Record::Inverse { target, .. })
            | Ok(Record::Power { target, .. })
            | Ok(Record::Exercise { slot: target, .. }) => Kind::Keeps(target),
            Ok(Record::Close) => Kind::Closes,
            Ok(Record::Clear { operand }) => Kind::Empties(operand),
            Ok(Record::Pair { .. }) => Kind::AddsPair,
            Ok(Record::PairsHeld) => Kind::Asks,
            _ => Kind::Works,
        }
    }

    fn of_job(job: Job) -> Kind {
        match job.letter {
            b'F' => Kind::Keeps(job.c),
            b'I' | b'K' => Kind::Keeps(job.b),
            b'X' => Kind::Keeps(job.a),
            b'E' => Kind::Closes,
            b'C' => Kind::Empties(job.a),
            b'H' => Kind::Asks,
            _ => Kind::Works,
        }
    }

    /// The pairs of the slot that the record changes, by this desk and the letter of the
    /// plan that was open.
    fn pairs_of_target(self, desk: &Desk, opened: u8) -> u16 {
        let letter = match self {
            Kind::Keeps(letter) | Kind::Empties(letter) => letter,
            Kind::Closes => opened,
            _ => 0,
        };
        match letter {
            b'A'..=b'H' => desk.blocks[usize::from(letter - b'A')].pairs as u16,
            _ => 0,
        }
    }
}

/// The second implementation, wrong about the pairs it holds; or right, so that it is
/// seen that nothing else is wrong here.
pub struct Misheld {
    holding: Option<Holding>,
    second: Second,
}

impl Misheld {
    pub fn new(holding: Option<Holding>) -> Misheld {
        Misheld {
            holding,
            second: Second::default(),
        }
    }

    fn is(&self, holding: Holding) -> bool {
        self.holding == Some(holding)
    }

    /// The desk as the faulty test of desks sees it.
    fn seen(&self, desk: &Desk) -> Desk {
        let mut seen = *desk;
        let (stored, counted) = (desk.control.pairs, desk.counted_pairs());
        let unseen = match self.holding {
            Some(Holding::Unseen) => true,
            Some(Holding::LowByteSeen) => stored as u8 == counted as u8,
            Some(Holding::TooLowUnseen) => stored < counted,
            Some(Holding::TooHighUnseen) => stored > counted,
            Some(Holding::ZeroUnseen) => stored == 0,
            _ => false,
        };
        if unseen {
            seen.settle();
        }
        if self.is(Holding::OpenInSum) {
            let open = desk.blocks[OPEN].pairs as u16;
            seen.control.pairs = stored.wrapping_sub(open);
        }
        seen
    }

    /// Leaves what is no desk.
    fn leave_no_desk(&self, desk: &mut Desk) {
        if self.is(Holding::MendedByNoDesk) {
            desk.settle();
        }
    }

    /// A record on a sound desk, done by this call; its answer has a number.
    fn work<A>(
        &self,
        desk: &mut Desk,
        kind: Kind,
        number: fn(&mut A) -> &mut u8,
        refused: fn(u8) -> A,
        call: impl FnOnce(&mut Desk) -> A,
    ) -> A {
        let before = *desk;
        if let (Kind::Asks, Some(number)) = (kind, self.refused_first(desk)) {
            *desk = desk.without_open();
            return refused(number);
        }
        if kind == Kind::Asks {
            self.meet(desk);
        }
        let mut answer = call(desk);
        desk.control.station = match kind {
            Kind::Asks => before.control.station,
            _ => desk.control.station,
        };
        let number = number(&mut answer);
        self.leave(&before, desk, kind, *number);
        if kind == Kind::Asks && *number == 19 && self.is(Holding::RightForStation) {
            *number = 20;
        }
        answer
    }

    /// The number of an H that the fault refuses before it is looked at.
    fn refused_first(&self, desk: &Desk) -> Option<u8> {
        let Desk {
            opened, control, ..
        } = desk;
        let count = control.changes[control.station as usize];
        match self.holding {
            Some(Holding::StationBeforeTurn) if control.station > 0 => Some(19),
            Some(Holding::StoppedByLimit) => {
                let asks = *opened == 0 && control.station == 0;
                (asks && u64::from(count) == COUNT_LIMIT).then_some(16)
            }
            _ => None,
        }
    }

    /// The desk that an H meets in the place of this.
    fn meet(&self, desk: &mut Desk) {
        match self.holding {
            Some(Holding::ToldToAll) => desk.control.station = 0,
            Some(Holding::ToldWhileOpen) => *desk = desk.without_open(),
            _ => {}
        }
    }

    /// What an answer with this number leaves besides a sound desk.
    fn leave(&self, before: &Desk, desk: &mut Desk, kind: Kind, number: u8) {
        let target = kind.pairs_of_target(before, before.opened);
        let kept = kind.pairs_of_target(desk, before.opened);
        let (was, is) = (before.control.pairs, desk.control.pairs);
        let changed = number == 0 && is_change(kind);
        let sum = match (self.holding, number) {
            (Some(Holding::OverwrittenLeft), 0) if kind != Kind::Works => was + kept,
            (Some(Holding::EmptiedLeft), 0) if matches!(kind, Kind::Empties(_)) => was,
            (Some(Holding::TypedCounted), 0) if kind == Kind::Closes => {
                is + before.blocks[OPEN].pairs as u16 - kept
            }
            (Some(Holding::OpenCounted), 0) if kind == Kind::AddsPair => is + 1,
            (Some(Holding::Stale), 0) if changed => was,
            (Some(Holding::MovedByLimit), 16)
            | (Some(Holding::MovedByShortBuffer), 14)
            | (Some(Holding::MovedByResult), 11) => is - target,
            (Some(Holding::Forgotten), 1..) => 0,
            _ => is,
        };
        desk.control.pairs = sum;
        if kind == Kind::Asks {
            self.leave_asked(before, desk, number);
        }
    }

    /// What an H with this number leaves besides a sound desk.
    fn leave_asked(&self, before: &Desk, desk: &mut Desk, number: u8) {
        match (self.holding, number) {
            (Some(Holding::Counted), 0) => {
                let count = desk.count();
                *count = (*count + 1).min(COUNT_LIMIT as u32);
            }
            (Some(Holding::OpenLeft), 2) | (Some(Holding::ToldWhileOpen), 0) => {
                desk.opened = before.opened;
                desk.put(OPEN, &before.value(OPEN));
            }
            _ => {}
        }
    }
}

fn is_change(kind: Kind) -> bool {
    matches!(kind, Kind::Keeps(_) | Kind::Closes | Kind::Empties(_))
}

impl Calls for Misheld {
    fn fresh(&self) -> Desk {
        self.second.fresh()
    }

    fn size(&self) -> usize {
        self.second.size()
    }

    fn is_desk(&self, desk: &Desk) -> bool {
        self.second.is_desk(&self.seen(desk))
    }

    fn line(&self, desk: &mut Desk, line: &[u8], out: &mut [u8]) -> Written {
        if !self.is_desk(desk) {
            self.leave_no_desk(desk);
            return Written::refused(15, 0);
        }
        *desk = self.seen(desk);
        let line = match line {
            [b'H', b'\t', ..] if self.is(Holding::FieldsTaken) => b"H",
            line => line,
        };
        self.work(
            desk,
            Kind::of_line(line),
            |written: &mut Written| &mut written.number,
            |number| Written::refused(number, 0),
            |desk| self.second.line(desk, line, out),
        )
    }

    fn job(&self, desk: &mut Desk, mut job: Job) -> Done {
        if !self.is_desk(desk) {
            self.leave_no_desk(desk);
            return Done::refused(15, 0);
        }
        *desk = self.seen(desk);
        let kind = Kind::of_job(job);
        if kind == Kind::Asks && self.is(Holding::JobRefused) {
            job.letter = 0;
        }
        let mut answer = self.work(
            desk,
            kind,
            |done: &mut Done| &mut done.number,
            |number| Done::refused(number, 0),
            |desk| {
                if kind == Kind::Asks && self.is(Holding::FieldAsStation) {
                    desk.control.station = u32::from(job.a % 8);
                }
                self.second.job(desk, job)
            },
        );
        match self.holding {
            Some(Holding::NoValue) if kind == Kind::Asks => answer.value = 0,
            Some(Holding::OneByte) if kind == Kind::Asks => answer.value &= 0xff,
            _ => {}
        }
        answer
    }
}
