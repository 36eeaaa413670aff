//! Pieces of input as a desk takes them that reads or answers them wrongly: it cuts
//! lines otherwise, stops elsewhere, is wrong about lines that are too long, or about
//! what a refusal leaves. All else is the second implementation's.

use reference::LINE_BYTES;

use crate::calls::{refusal_line, Calls};
use crate::second::Second;
use crate::values::{Desk, Done, Fed, Job, Written, LONGEST_REPLY};

/// What is wrong with a piece.
#[derive(Clone, Copy, Debug, PartialEq, Eq)]
pub enum Feeding {
    /// A line is answered twice.
    AnsweredTwice,
    /// The line before a stop is answered and not taken, so that it comes again.
    TakenShort,
    /// The beginning of a line is taken and forgotten.
    BeginningTaken,
    /// The beginning of a line is taken and answered.
    BeginningAnswered,
    /// The last whole line isn't answered where nothing stands behind it.
    LastLineLeft,
    /// An empty line isn't answered.
    EmptyLineSkipped,
    /// Where there is no room for more lines, 14 is answered.
    ShortAfterLines,
    /// 14 comes before 15.
    ShortBeforeNoDesk,
    /// 14 isn't answered to an empty piece.
    EmptyNeedsNoRoom,
    /// 14 isn't answered where the replies fit.
    RoomByNeed,
    /// 14 takes the piece.
    TakenByShortBuffer,
    /// The call stops where room for just one reply is left.
    OneByteMore,
    /// The call stops one line early, where there isn't room for two replies.
    OneLineEarly,
    /// The call goes on as long as the replies fit.
    NoStop,
    /// The beginning of a line that is too long is taken behind a stop.
    BeginningBehindStop,
    /// `overlong` isn't handed back.
    OverlongForgotten,
    /// `overlong` isn't looked at.
    OverlongUnread,
    /// `overlong` is handed back where the line has ended.
    OverlongStays,
    /// 14 and 15 hand back false.
    OverlongAfterRefusal,
    /// A beginning of 1,100 bytes is too long.
    BeginningOneLess,
    /// A beginning of 1,101 bytes isn't too long yet.
    BeginningOneMore,
    /// Of a beginning that is too long 1,101 bytes are taken.
    BeginningInPart,
    /// A whole line of 1,100 bytes is too long.
    LineOneLess,
    /// A line that is too long is refused where that is seen, and at its end.
    RefusedTwice,
    /// The end of a line that is too long isn't refused.
    RefusedNever,
    /// The end of a line that is too long leaves the open plan open.
    OpenAfterLongLine,
    /// A line that is too long ends with the piece, at its last byte 10.
    NextLinesTaken,
    /// There is a byte between replies that isn't written.
    Gap,
    /// A byte behind the replies is written.
    ByteBehind,
    /// All of the buffer behind the replies is cleared.
    ClearedBuffer,
    /// A refusal of a line leaves the open plan open.
    OpenAfterRefusal,
    /// The call stops behind a refusal.
    StoppedByRefusal,
    /// The answer has the number of the last refusal.
    NumberOfRefusal,
    /// Refusals aren't written.
    RefusalsUnwritten,
    /// Refusals are written without their column.
    ColumnUnwritten,
    /// An open plan is dropped at the end of the piece.
    OpenAfterPiece,
    /// 14 drops the open plan.
    DroppedByShortBuffer,
    /// 15 drops the open plan.
    DroppedByNoDesk,
    /// The desk isn't checked.
    Unchecked,
    /// The desk is checked where there is a whole line.
    CheckedByLines,
}

pub const FEEDINGS: [Feeding; 40] = [
    Feeding::AnsweredTwice,
    Feeding::TakenShort,
    Feeding::BeginningTaken,
    Feeding::BeginningAnswered,
    Feeding::LastLineLeft,
    Feeding::EmptyLineSkipped,
    Feeding::ShortAfterLines,
    Feeding::ShortBeforeNoDesk,
    Feeding::EmptyNeedsNoRoom,
    Feeding::RoomByNeed,
    Feeding::TakenByShortBuffer,
    Feeding::OneByteMore,
    Feeding::OneLineEarly,
    Feeding::NoStop,
    Feeding::BeginningBehindStop,
    Feeding::OverlongForgotten,
    Feeding::OverlongUnread,
    Feeding::OverlongStays,
    Feeding::OverlongAfterRefusal,
    Feeding::BeginningOneLess,
    Feeding::BeginningOneMore,
    Feeding::BeginningInPart,
    Feeding::LineOneLess,
    Feeding::RefusedTwice,
    Feeding::RefusedNever,
    Feeding::OpenAfterLongLine,
    Feeding::NextLinesTaken,
    Feeding::Gap,
    Feeding::ByteBehind,
    Feeding::ClearedBuffer,
    Feeding::OpenAfterRefusal,
    Feeding::StoppedByRefusal,
    Feeding::NumberOfRefusal,
    Feeding::RefusalsUnwritten,
    Feeding::ColumnUnwritten,
    Feeding::OpenAfterPiece,
    Feeding::DroppedByShortBuffer,
    Feeding::DroppedByNoDesk,
    Feeding::Unchecked,
    Feeding::CheckedByLines,
];

/// A line that is too long.
const TOO_LONG: [u8; LINE_BYTES + 1] = [0; LINE_BYTES + 1];

/// The second implementation, wrong about pieces of input; or right, so that it is
/// seen that nothing else is wrong here. It goes line by line.
pub struct Misfed {
    feeding: Option<Feeding>,
    second: Second,
    /// Another, which remembers the desks of rehearsals.
    rehearsing: Second,
}

impl Misfed {
    pub fn new(feeding: Option<Feeding>) -> Misfed {
        Misfed {
            feeding,
            second: Second::default(),
            rehearsing: Second::default(),
        }
    }

    fn is(&self, feeding: Feeding) -> bool {
        self.feeding == Some(feeding)
    }

    /// The refusal of the whole piece, where there is one.
    fn refused(&self, desk: &mut Desk, overlong: bool, input: &[u8], room: usize) -> Option<Fed> {
        let checked = match self.feeding {
            Some(Feeding::Unchecked) => false,
            Some(Feeding::CheckedByLines) => input.contains(&b'\n'),
            _ => true,
        };
        let no_desk = checked && !self.second.is_desk(desk);
        let short = match self.feeding {
            Some(Feeding::EmptyNeedsNoRoom) => !input.is_empty(),
            Some(Feeding::RoomByNeed) => !self.fits(desk, input, room),
            _ => true,
        };
        let number = match (no_desk, short && room < LONGEST_REPLY) {
            (true, short) if !(short && self.is(Feeding::ShortBeforeNoDesk)) => 15,
            (_, true) => 14,
            _ => return None,
        };
        let dropped = match number {
            14 => Feeding::DroppedByShortBuffer,
            _ => Feeding::DroppedByNoDesk,
        };
        if self.is(dropped) {
            *desk = desk.without_open();
        }
        let mut fed = Fed::refused(number, overlong);
        fed.overlong &= !self.is(Feeding::OverlongAfterRefusal);
        if number == 14 && self.is(Feeding::TakenByShortBuffer) {
            fed.taken = input.len();
        }
        Some(fed)
    }

    /// Whether there is room for the reply to the first line, if that is whole.
    fn fits(&self, desk: &Desk, input: &[u8], room: usize) -> bool {
        let Some(end) = input.iter().position(|byte| *byte == b'\n') else {
            return true;
        };
        let (mut rehearsed, mut out) = (*desk, [0; LONGEST_REPLY]);
        let line = &input[..end];
        let answer = self.rehearsing.line(&mut rehearsed, line, &mut out);
        answer.length + refusal_line(answer).len() <= room
    }

    /// Whether the call goes on with what is left of the piece.
    fn goes_on(&self, desk: &Desk, fed: &Fed, left: &[u8], room: usize) -> bool {
        let end = left.iter().position(|byte| *byte == b'\n');
        let least = match self.feeding {
            Some(Feeding::OneByteMore) => LONGEST_REPLY + 1,
            Some(Feeding::OneLineEarly) if fed.taken > 0 => 2 * LONGEST_REPLY,
            Some(Feeding::BeginningBehindStop) if end.is_none() => 0,
            Some(Feeding::NoStop | Feeding::RoomByNeed) if self.fits(desk, left, room) => 0,
            _ => LONGEST_REPLY,
        };
        let last = end.is_some_and(|end| end + 1 == left.len()) && fed.taken > 0;
        room >= least && !(last && self.is(Feeding::LastLineLeft))
    }

    /// Takes the beginning of a line, as far as it is taken.
    fn begin(&self, desk: &mut Desk, fed: &mut Fed, left: &[u8], out: &mut [u8]) {
        let most = match self.feeding {
            Some(Feeding::BeginningOneLess) => LINE_BYTES - 1,
            Some(Feeding::BeginningOneMore) => LINE_BYTES + 1,
            _ => LINE_BYTES,
        };
        if fed.overlong {
            fed.taken += left.len();
        } else if left.len() > most {
            fed.overlong = true;
            let in_part = self.is(Feeding::BeginningInPart);
            fed.taken += if in_part { most + 1 } else { left.len() };
            if self.is(Feeding::RefusedTwice) {
                self.answer(desk, fed, &TOO_LONG, out);
            }
        } else if self.is(Feeding::BeginningTaken) {
            fed.taken += left.len();
        } else if self.is(Feeding::BeginningAnswered) && !left.is_empty() {
            self.answer(desk, fed, left, out);
            fed.taken += left.len();
        }
        fed.overlong &= !self.is(Feeding::OverlongForgotten);
    }

    /// Takes a line up to its byte 10, and answers it. Gives how many bytes it had with
    /// that, and the number of its refusal.
    fn take(&self, desk: &mut Desk, fed: &mut Fed, left: &[u8], out: &mut [u8]) -> (usize, u8) {
        let mut ends = left.iter().enumerate().filter(|(_, byte)| **byte == b'\n');
        let end = match fed.overlong && self.is(Feeding::NextLinesTaken) {
            true => ends.next_back(),
            false => ends.next(),
        };
        let end = end.map_or(0, |(place, _)| place);
        let line = &left[..end];
        let before = *desk;
        fed.taken += end + 1;
        let one_less = self.is(Feeding::LineOneLess) && line.len() == LINE_BYTES;
        let number = if fed.overlong || one_less {
            let length = fed.length;
            let number = self.answer(desk, fed, &TOO_LONG, out);
            if self.is(Feeding::RefusedNever) && fed.overlong {
                fed.length = length;
            }
            if self.is(Feeding::OpenAfterLongLine) {
                *desk = before;
            }
            number
        } else if line.is_empty() && self.is(Feeding::EmptyLineSkipped) {
            0
        } else {
            if self.is(Feeding::AnsweredTwice) {
                self.answer(desk, fed, line, out);
            }
            self.answer(desk, fed, line, out)
        };
        fed.overlong &= self.is(Feeding::OverlongStays);
        (end + 1, number)
    }

    /// Answers a line behind the replies before it, and gives the number of a refusal.
    fn answer(&self, desk: &mut Desk, fed: &mut Fed, line: &[u8], out: &mut [u8]) -> u8 {
        let before = *desk;
        let mut answer = self.second.line(desk, line, &mut out[fed.length..]);
        fed.length += answer.length;
        if answer.number != 0 && self.is(Feeding::OpenAfterRefusal) {
            *desk = before;
        }
        if self.is(Feeding::ColumnUnwritten) {
            answer.column = 0;
        }
        let refusal = refusal_line(answer);
        let place = out.get_mut(fed.length..fed.length + refusal.len());
        if let Some(place) = place.filter(|_| !self.is(Feeding::RefusalsUnwritten)) {
            place.copy_from_slice(&refusal);
            fed.length += refusal.len();
        }
        if self.is(Feeding::Gap) && fed.length < out.len() {
            fed.length += 1;
        }
        answer.number
    }

    /// What is wrong behind the lines.
    fn close(&self, desk: &mut Desk, fed: &Fed, out: &mut [u8]) {
        match self.feeding {
            Some(Feeding::OpenAfterPiece) => *desk = desk.without_open(),
            Some(Feeding::ByteBehind) => out[fed.length..].iter_mut().take(1).for_each(|b| *b = 0),
            Some(Feeding::ClearedBuffer) => out[fed.length..].fill(0),
            _ => {}
        }
    }
}

impl Calls for Misfed {
    fn fresh(&self) -> Desk {
        self.second.fresh()
    }

    fn size(&self) -> usize {
        self.second.size()
    }

    fn is_desk(&self, desk: &Desk) -> bool {
        self.second.is_desk(desk)
    }

    fn line(&self, desk: &mut Desk, line: &[u8], out: &mut [u8]) -> Written {
        self.second.line(desk, line, out)
    }

    fn job(&self, desk: &mut Desk, job: Job) -> Done {
        self.second.job(desk, job)
    }

    fn feed(&self, desk: &mut Desk, overlong: bool, input: &[u8], out: &mut [u8]) -> Fed {
        if let Some(refused) = self.refused(desk, overlong, input, out.len()) {
            return refused;
        }
        let unread = self.is(Feeding::OverlongUnread);
        let mut fed = Fed::refused(0, overlong && !unread);
        let (mut last, mut refusal) = (0, 0);
        loop {
            let left = &input[fed.taken..];
            let whole = left.contains(&b'\n');
            if !self.goes_on(desk, &fed, left, out.len() - fed.length) {
                if whole && fed.taken > 0 && self.is(Feeding::ShortAfterLines) {
                    return Fed::refused(14, overlong);
                }
                if whole && self.is(Feeding::TakenShort) {
                    fed.taken -= last;
                }
                break;
            }
            if !whole {
                self.begin(desk, &mut fed, left, out);
                break;
            }
            let (taken, number) = self.take(desk, &mut fed, left, out);
            last = taken;
            if number != 0 {
                refusal = number;
                if self.is(Feeding::StoppedByRefusal) {
                    break;
                }
            }
        }
        if self.is(Feeding::NumberOfRefusal) {
            fed.number = refusal;
        }
        self.close(desk, &fed, out);
        fed
    }
}
