//! Calls as a desk answers them that is wrong about its stations (E5): it counts for
//! another, holds them to a wrong limit, names one at the wrong time, or doesn't look
//! at all of them before it works. All else is the second implementation's.

use reference::{Record, COUNT_LIMIT};

use crate::calls::Calls;
use crate::second::Second;
use crate::values::{Control, Desk, Done, Job, Written, OPEN, STATIONS};

const LIMIT: u32 = COUNT_LIMIT as u32;

/// What is wrong with the stations.
#[derive(Clone, Copy, Debug, PartialEq, Eq)]
pub enum Naming {
    /// The limit of station 0 is that of all.
    LimitOfZero,
    /// One station at its limit stops all.
    LimitOfAny,
    /// The limit is one of all changes together.
    LimitOfSum,
    /// Changes are counted for station 0.
    CountedForZero,
    /// T gives the changes of station 0.
    ZeroTold,
    /// T gives the changes of all.
    SumTold,
    /// Z is a change of the station that it names.
    Counted,
    /// Z begins all counts anew.
    CountsForgotten,
    /// Any refusal names station 0.
    StationForgotten,
    /// Z reads its station in three bits.
    ThreeBits,
    /// A job of Z reads its station as a digit.
    DigitInJobs,
    /// Z is refused as a job.
    JobRefused,
    /// A job of Z has its station for a value.
    StationAsValue,
    /// 18 names a station, in three bits.
    NamedByRange,
    /// 2 names the station.
    NamedByTurn,
    /// 14 names the station.
    NamedByShortBuffer,
    /// 18 comes before 2.
    RangeBeforeTurn,
    /// Z leaves an open plan open.
    OpenLeft,
    /// Z is done with a plan open, which stays open.
    DoneWhileOpen,
    /// A station above 7 isn't looked at.
    StationUnseen,
    /// The named station is read modulo 256.
    StationModulo256,
    /// Counts of stations that aren't named aren't looked at.
    OthersUnseen,
    /// The count of station 7 isn't looked at.
    LastUnseen,
    /// 15 names station 0.
    NamedByNoDesk,
    /// 15 cuts counts to their limit.
    CutByNoDesk,
}

pub const NAMINGS: [Naming; 25] = [
    Naming::LimitOfZero,
    Naming::LimitOfAny,
    Naming::LimitOfSum,
    Naming::CountedForZero,
    Naming::ZeroTold,
    Naming::SumTold,
    Naming::Counted,
    Naming::CountsForgotten,
    Naming::StationForgotten,
    Naming::ThreeBits,
    Naming::DigitInJobs,
    Naming::JobRefused,
    Naming::StationAsValue,
    Naming::NamedByRange,
    Naming::NamedByTurn,
    Naming::NamedByShortBuffer,
    Naming::RangeBeforeTurn,
    Naming::OpenLeft,
    Naming::DoneWhileOpen,
    Naming::StationUnseen,
    Naming::StationModulo256,
    Naming::OthersUnseen,
    Naming::LastUnseen,
    Naming::NamedByNoDesk,
    Naming::CutByNoDesk,
];

/// What a record is to the stations.
#[derive(Clone, Copy)]
enum Kind {
    Names(u8),
    Tells,
    /// It changes a slot, or nothing.
    Works,
}

/// The second implementation, wrong about its stations; or right, so that it is seen
/// that nothing else is wrong here.
pub struct Misnamed {
    naming: Option<Naming>,
    second: Second,
}

impl Misnamed {
    pub fn new(naming: Option<Naming>) -> Misnamed {
        Misnamed {
            naming,
            second: Second::default(),
        }
    }

    fn is(&self, naming: Naming) -> bool {
        self.naming == Some(naming)
    }

    /// The desk as the faulty test of desks sees it.
    fn seen(&self, desk: &Desk) -> Desk {
        let mut seen = *desk;
        let Control {
            station, changes, ..
        } = &mut seen.control;
        let named = *station as usize;
        for (counted, count) in changes.iter_mut().enumerate() {
            let unseen = self.is(Naming::OthersUnseen) && counted != named
                || self.is(Naming::LastUnseen) && counted == STATIONS - 1;
            if unseen {
                *count = LIMIT.min(*count);
            }
        }
        if self.is(Naming::StationUnseen) {
            *station %= STATIONS as u32;
        }
        if self.is(Naming::StationModulo256) {
            *station %= 256;
        }
        seen
    }

    /// Leaves what is no desk.
    fn leave_no_desk(&self, desk: &mut Desk) {
        if self.is(Naming::NamedByNoDesk) {
            desk.control.station = 0;
        }
        if self.is(Naming::CutByNoDesk) {
            desk.control.changes = desk.control.changes.map(|count| count.min(LIMIT));
        }
    }

    /// The desk that a record meets in the place of this one.
    fn met(&self, desk: &Desk, kind: Kind) -> Desk {
        let mut met = *desk;
        let sum: u64 = desk.control.changes.iter().map(|n| u64::from(*n)).sum();
        let sum = sum.min(COUNT_LIMIT) as u32;
        let largest = desk.control.changes.iter().max().copied();
        match (self.naming, kind) {
            (Some(Naming::LimitOfZero), Kind::Works) => *met.count() = desk.control.changes[0],
            (Some(Naming::LimitOfAny), Kind::Works) => *met.count() = largest.unwrap_or(0),
            (Some(Naming::LimitOfSum), Kind::Works) => *met.count() = sum,
            (Some(Naming::CountedForZero), Kind::Works) => met.control.station = 0,
            (Some(Naming::ZeroTold), Kind::Tells) => met.control.station = 0,
            (Some(Naming::SumTold), Kind::Tells) => *met.count() = sum,
            (Some(Naming::RangeBeforeTurn), Kind::Names(8..)) => met = met.without_open(),
            (Some(Naming::DoneWhileOpen), Kind::Names(0..8)) => met = met.without_open(),
            _ => {}
        }
        met
    }

    /// A record on a sound desk, done by this call; its answer has a number.
    fn work<A>(
        &self,
        desk: &mut Desk,
        kind: Kind,
        number: fn(&A) -> u8,
        call: impl FnOnce(&mut Desk) -> A,
    ) -> A {
        let before = *desk;
        let met = self.met(&before, kind);
        *desk = met;
        let answer = call(desk);
        desk.control = merged(before.control, met.control, desk.control);
        self.leave(&before, desk, kind, number(&answer));
        answer
    }

    /// What an answer with this number leaves besides a sound desk.
    fn leave(&self, before: &Desk, desk: &mut Desk, kind: Kind, number: u8) {
        if number != 0 && self.is(Naming::StationForgotten) {
            desk.control.station = 0;
        }
        let Kind::Names(station) = kind else {
            return;
        };
        let in_three_bits = u32::from(station) % STATIONS as u32;
        match (self.naming, number) {
            (Some(Naming::Counted), 0) => *desk.count() = LIMIT.min(*desk.count() + 1),
            (Some(Naming::CountsForgotten), 0) => desk.control.changes = [0; STATIONS],
            (Some(Naming::NamedByRange), 18)
            | (Some(Naming::NamedByTurn), 2)
            | (Some(Naming::NamedByShortBuffer), 14) => desk.control.station = in_three_bits,
            (Some(Naming::OpenLeft), 2) => *desk = *before,
            (Some(Naming::DoneWhileOpen), 0) => {
                desk.opened = before.opened;
                desk.put(OPEN, &before.value(OPEN));
            }
            _ => {}
        }
    }
}

/// The stations after a record, which met others than there were: what it counted is
/// added to what they had, and the station stays where another was put in its place.
fn merged(before: Control, met: Control, after: Control) -> Control {
    let mut merged = before;
    merged.rights = after.rights;
    merged.pairs = after.pairs;
    if met.station == before.station {
        merged.station = after.station;
    }
    let counted = after.changes.into_iter().zip(met.changes);
    for (count, (after, met)) in merged.changes.iter_mut().zip(counted) {
        *count = LIMIT.min(*count + (after - met));
    }
    merged
}

impl Calls for Misnamed {
    fn fresh(&self) -> Desk {
        self.second.fresh()
    }

    fn size(&self) -> usize {
        self.second.size()
    }

    fn is_desk(&self, desk: &Desk) -> bool {
        self.second.is_desk(&self.seen(desk))
    }

    fn line(&self, desk: &mut Desk, line: &[u8], out: &mut [u8]) -> Written {
        if !self.is_desk(desk) {
            self.leave_no_desk(desk);
            return Written::refused(15, 0);
        }
        *desk = self.seen(desk);
        let mut line = line.to_vec();
        let kind = match Record::read(&line) {
            Ok(Record::Station { station }) => Kind::Names(station),
            Ok(Record::Count) => Kind::Tells,
            _ => Kind::Works,
        };
        if let (Kind::Names(station), true) = (kind, self.is(Naming::ThreeBits)) {
            line = format!("Z\t{}", station % STATIONS as u8).into_bytes();
        }
        self.work(
            desk,
            kind,
            |written: &Written| written.number,
            |desk| self.second.line(desk, &line, out),
        )
    }

    fn job(&self, desk: &mut Desk, mut job: Job) -> Done {
        if !self.is_desk(desk) {
            self.leave_no_desk(desk);
            return Done::refused(15, 0);
        }
        *desk = self.seen(desk);
        let kind = match job.letter {
            b'Z' => Kind::Names(job.a),
            b'T' => Kind::Tells,
            _ => Kind::Works,
        };
        if let Kind::Names(station) = kind {
            match self.naming {
                Some(Naming::ThreeBits) => job.a = station % STATIONS as u8,
                Some(Naming::DigitInJobs) => job.a = station.wrapping_sub(b'0'),
                Some(Naming::JobRefused) => job.letter = 0,
                _ => {}
            }
        }
        let mut answer = self.work(
            desk,
            kind,
            |done: &Done| done.number,
            |desk| self.second.job(desk, job),
        );
        if let (Kind::Names(station), 0, true) =
            (kind, answer.number, self.is(Naming::StationAsValue))
        {
            answer.value = station.into();
        }
        answer
    }
}
