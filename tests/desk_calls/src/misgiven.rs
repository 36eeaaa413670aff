//! Calls as a desk answers them that is wrong about its rights (E6): it gives others,
//! or at the wrong time, looks at others or at none, or doesn't look at all of them
//! before it works. All else is the second implementation's.

use reference::{Record, COUNT_LIMIT};

use crate::calls::Calls;
use crate::second::Second;
use crate::values::{places_of_rights, Control, Desk, Done, Job, Written, OPEN, SLOTS, STATIONS};

/// What is wrong with the rights.
#[derive(Clone, Copy, Debug, PartialEq, Eq)]
pub enum Giving {
    /// G counts as a change.
    Counted,
    /// G gives its right on all slots.
    OnAllSlots,
    /// G gives its right to all stations.
    ToAllStations,
    /// The slots of a station's rights stand in the other order.
    SlotsTurned,
    /// G puts the bits of its right to those that are there.
    BitsTogether,
    /// 19 gives the right all the same.
    GivenByGiver,
    /// 2 gives the right.
    GivenByTurn,
    /// 14 gives the right.
    GivenByShortBuffer,
    /// G leaves an open plan open.
    OpenLeft,
    /// Any refusal gives everyone all rights.
    Forgotten,
    /// A job of G with a right above 2 gives 2.
    AboveTwoTaken,
    /// A job of G reads its right in two bits.
    TwoBits,
    /// A right above 2 in a job is looked for after an open plan.
    TurnBeforeForm,
    /// A job of G reads station and right as digits.
    DigitsInJobs,
    /// G is refused as a job.
    JobRefused,
    /// A job of G has its right for a value.
    RightAsValue,
    /// No record is refused for want of a right, and U shows all.
    NotLookedAt,
    /// The rights of the next station are looked at.
    OfTheNext,
    /// A right of 1 does for what needs 2.
    OneIsEnough,
    /// E needs the right 2 on the slot of its plan.
    EndTested,
    /// A right of 3 is taken for 2.
    ThreeUnseen,
    /// A right of 3 on slot H isn't looked at.
    LastSlotUnseen,
    /// The rights of station 7 aren't looked at.
    LastStationUnseen,
    /// The rights of stations that aren't named aren't looked at.
    OthersUnseen,
    /// 15 makes rights of 3 into 2.
    MendedByNoDesk,
}

pub const GIVINGS: [Giving; 25] = [
    Giving::Counted,
    Giving::OnAllSlots,
    Giving::ToAllStations,
    Giving::SlotsTurned,
    Giving::BitsTogether,
    Giving::GivenByGiver,
    Giving::GivenByTurn,
    Giving::GivenByShortBuffer,
    Giving::OpenLeft,
    Giving::Forgotten,
    Giving::AboveTwoTaken,
    Giving::TwoBits,
    Giving::TurnBeforeForm,
    Giving::DigitsInJobs,
    Giving::JobRefused,
    Giving::RightAsValue,
    Giving::NotLookedAt,
    Giving::OfTheNext,
    Giving::OneIsEnough,
    Giving::EndTested,
    Giving::ThreeUnseen,
    Giving::LastSlotUnseen,
    Giving::LastStationUnseen,
    Giving::OthersUnseen,
    Giving::MendedByNoDesk,
];

/// What a record is to the rights.
#[derive(Clone, Copy, PartialEq, Eq)]
enum Kind {
    /// It gives a station a right on a slot.
    Gives(u8, u8, u8),
    Ends,
    Works,
}

/// The second implementation, wrong about its rights; or right, so that it is seen
/// that nothing else is wrong here.
pub struct Misgiven {
    giving: Option<Giving>,
    second: Second,
}

/// Puts 2 into those places of a right of 3 that fit.
fn mend(control: &mut Control, fits: impl Fn(usize, usize) -> bool) {
    for (station, slot) in places_of_rights() {
        if control.right(station, slot) == 3 && fits(station, slot) {
            control.put_right(station, slot, 2);
        }
    }
}

impl Misgiven {
    pub fn new(giving: Option<Giving>) -> Misgiven {
        Misgiven {
            giving,
            second: Second::default(),
        }
    }

    fn is(&self, giving: Giving) -> bool {
        self.giving == Some(giving)
    }

    /// The desk as the faulty test of desks sees it.
    fn seen(&self, desk: &Desk) -> Desk {
        let mut seen = *desk;
        let named = desk.control.station as usize;
        match self.giving {
            Some(Giving::ThreeUnseen) => mend(&mut seen.control, |_, _| true),
            Some(Giving::LastSlotUnseen) => mend(&mut seen.control, |_, slot| slot == SLOTS - 1),
            Some(Giving::LastStationUnseen) => {
                mend(&mut seen.control, |station, _| station == STATIONS - 1);
            }
            Some(Giving::OthersUnseen) => mend(&mut seen.control, |station, _| station != named),
            _ => {}
        }
        seen
    }

    /// Leaves what is no desk.
    fn leave_no_desk(&self, desk: &mut Desk) {
        if self.is(Giving::MendedByNoDesk) {
            mend(&mut desk.control, |_, _| true);
        }
    }

    /// The rights that a record meets in the place of these.
    fn met(&self, control: &Control) -> Control {
        let mut met = *control;
        for (station, slot) in places_of_rights() {
            let right = control.right(station, slot);
            let right = match self.giving {
                Some(Giving::NotLookedAt) => 2,
                Some(Giving::OfTheNext) => control.right(station % 7 + 1, slot),
                Some(Giving::OneIsEnough) if right == 1 => 2,
                Some(Giving::SlotsTurned) => control.right(station, SLOTS - 1 - slot),
                _ => right,
            };
            met.put_right(station, slot, right);
        }
        met
    }

    /// Whether the named station lacks 2 on the slot of the open plan.
    fn lacks_for_end(&self, desk: &Desk) -> bool {
        let station = desk.control.station as usize;
        let slot = usize::from(desk.opened.wrapping_sub(b'A'));
        desk.opened != 0 && station > 0 && desk.control.right(station, slot) < 2
    }

    /// A record on a sound desk, done by this call; its answer has a number.
    fn work<A>(
        &self,
        desk: &mut Desk,
        kind: Kind,
        number: fn(&A) -> u8,
        refused: fn(u8) -> A,
        call: impl FnOnce(&mut Desk) -> A,
    ) -> A {
        let before = *desk;
        if kind == Kind::Ends && self.is(Giving::EndTested) && self.lacks_for_end(desk) {
            *desk = desk.without_open();
            return refused(20);
        }
        let gives = matches!(kind, Kind::Gives(..));
        if !gives {
            desk.control.rights = self.met(&before.control).rights;
        }
        let answer = call(desk);
        if !gives {
            desk.control.rights = before.control.rights;
        }
        self.leave(&before, desk, kind, number(&answer));
        answer
    }

    /// What an answer with this number leaves besides a sound desk.
    fn leave(&self, before: &Desk, desk: &mut Desk, kind: Kind, number: u8) {
        if number != 0 && self.is(Giving::Forgotten) {
            desk.control.rights = Control::ALL_RIGHTS;
        }
        let Kind::Gives(station @ 1..=7, letter @ b'A'..=b'H', right @ 0..=2) = kind else {
            return;
        };
        let (station, slot) = (usize::from(station), usize::from(letter - b'A'));
        let control = &mut desk.control;
        match (self.giving, number) {
            (Some(Giving::Counted), 0) => {
                let count = desk.count();
                *count = (*count + 1).min(COUNT_LIMIT as u32);
            }
            (Some(Giving::OnAllSlots), 0) => {
                (0..SLOTS).for_each(|slot| control.put_right(station, slot, right));
            }
            (Some(Giving::ToAllStations), 0) => {
                (1..STATIONS).for_each(|station| control.put_right(station, slot, right));
            }
            (Some(Giving::SlotsTurned), 0) => {
                control.rights = before.control.rights;
                control.put_right(station, SLOTS - 1 - slot, right);
            }
            (Some(Giving::BitsTogether), 0) => {
                let together = before.control.right(station, slot) | right;
                control.put_right(station, slot, together);
            }
            (Some(Giving::GivenByGiver), 19)
            | (Some(Giving::GivenByTurn), 2)
            | (Some(Giving::GivenByShortBuffer), 14) => control.put_right(station, slot, right),
            (Some(Giving::OpenLeft), 2) => {
                desk.opened = before.opened;
                desk.put(OPEN, &before.value(OPEN));
            }
            _ => {}
        }
    }

    /// The job as the fault reads it.
    fn read(&self, mut job: Job) -> Job {
        match self.giving {
            Some(Giving::AboveTwoTaken) => job.c = job.c.min(2),
            Some(Giving::TwoBits) => job.c &= 3,
            Some(Giving::DigitsInJobs) => {
                job.a = job.a.wrapping_sub(b'0');
                job.c = job.c.wrapping_sub(b'0');
            }
            Some(Giving::JobRefused) => job.letter = 0,
            _ => {}
        }
        job
    }
}

impl Calls for Misgiven {
    fn fresh(&self) -> Desk {
        self.second.fresh()
    }

    fn size(&self) -> usize {
        self.second.size()
    }

    fn is_desk(&self, desk: &Desk) -> bool {
        self.second.is_desk(&self.seen(desk))
    }

    fn line(&self, desk: &mut Desk, line: &[u8], out: &mut [u8]) -> Written {
        if !self.is_desk(desk) {
            self.leave_no_desk(desk);
            return Written::refused(15, 0);
        }
        *desk = self.seen(desk);
        let kind = match Record::read(line) {
            Ok(Record::Grant {
                station,
                slot,
                right,
            }) => Kind::Gives(station, slot, right.number()),
            Ok(Record::Close) => Kind::Ends,
            _ => Kind::Works,
        };
        self.work(
            desk,
            kind,
            |written: &Written| written.number,
            |number| Written::refused(number, 0),
            |desk| self.second.line(desk, line, out),
        )
    }

    fn job(&self, desk: &mut Desk, mut job: Job) -> Done {
        if !self.is_desk(desk) {
            self.leave_no_desk(desk);
            return Done::refused(15, 0);
        }
        *desk = self.seen(desk);
        if job.letter == b'G' {
            let late = job.c > 2 && desk.opened != 0;
            if late && self.is(Giving::TurnBeforeForm) {
                *desk = desk.without_open();
                return Done::refused(2, 0);
            }
            job = self.read(job);
        }
        let kind = match job.letter {
            b'G' => Kind::Gives(job.a, job.b, job.c),
            b'E' => Kind::Ends,
            _ => Kind::Works,
        };
        let mut answer = self.work(
            desk,
            kind,
            |done: &Done| done.number,
            |number| Done::refused(number, 0),
            |desk| self.second.job(desk, job),
        );
        if let (Kind::Gives(_, _, right), 0, true) =
            (kind, answer.number, self.is(Giving::RightAsValue))
        {
            answer.value = right.into();
        }
        answer
    }
}
