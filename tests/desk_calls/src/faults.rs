//! What may be wrong with a desk: one fault for each broken copy, and the check
//! that is there for it.

use library::misread::{Step, STEPS};

use crate::calls::Calls;
use crate::checks::{
    buffers, bytes, damage, feeding, jobs, lines, pairs_held, paper, places, refusals, rights,
    sessions, stations, tables,
};
use crate::misfed::{Feeding, FEEDINGS};
use crate::misgiven::{Giving, GIVINGS};
use crate::misheld::{Holding, HOLDINGS};
use crate::mislisted::{Listing, LISTINGS};
use crate::misnamed::{Naming, NAMINGS};
use crate::misplaced::{Placing, PLACINGS};
use crate::misread::{Text, TEXTS};
use crate::missplit::{Limit, LIMITS};

/// What is wrong.
#[derive(Clone, Copy, Debug, PartialEq, Eq)]
pub enum Fault {
    /// 14 is answered, and the work done all the same.
    WorkBeforeShortBuffer,
    /// 14 leaves the open plan open.
    OpenAfterShortBuffer,
    /// 14 isn't answered where one byte is missing: the reply is cut.
    CutReply,
    /// 14 is answered, and the lines of a block that have room are written.
    LinesBeforeShortBuffer,
    /// The line that closes a block isn't reckoned with: where there is room for
    /// the others, they are the reply.
    BlockNotClosed,
    /// A front of a code is refused with 13.
    FrontRefused,
    /// A refusal leaves the open plan open.
    OpenAfterRefusal,
    /// A refusal unnames the open plan and leaves its words.
    WordsAfterRefusal,
    /// A refusal raises the count.
    CountedRefusal,
    /// The `no` line is written into the buffer.
    WrittenRefusal,
    /// A byte 0 is put behind the reply.
    ByteBehind,
    /// All of the buffer behind the reply is cleared.
    ClearedBuffer,
    /// 15 drops the open plan.
    DroppedByNoDesk,
    /// 15 clears the desk.
    ClearedNoDesk,
    /// 15 comes after 1: a line that is no record is refused for that.
    FormBeforeNoDesk,
    /// Words behind the pairs aren't looked at.
    BehindIgnored,
    /// Words of slots without a block aren't looked at.
    EmptyIgnored,
    /// Slots out of order are taken.
    OrderIgnored,
    /// Slots that aren't reduced are taken.
    JoinsIgnored,
    /// Slots whose columns are no bases are taken.
    BasesIgnored,
    /// Counts of pairs are looked at in their low 32 bits.
    NarrowCount,
    /// Whatever isn't a slot's letter stands for no open plan.
    LetterIgnored,
    /// What is left where no plan is open isn't looked at.
    LeftIgnored,
    /// An open plan has to be one that could be kept.
    OpenMustBePlan,
    /// The counts of changes aren't looked at.
    ChangesIgnored,
    /// The column of 6 and 7 isn't named.
    NoColumn,
    /// A line is read up to its 1,100th byte.
    LongLineCut,
    /// A line is read up to a byte 10.
    LineEndsAtTen,
    /// A line is read up to a byte 0.
    LineEndsAtZero,
    /// U leaves out its last slot.
    SlotMissing,
    /// U gives its first slot twice instead of the second.
    SlotTwice,
    /// U gives its slots by their letters alone.
    LettersAlone,
    /// U gives the slot with the fewest pairs first.
    FewestFirst,
    /// U gives of two slots with as many pairs the later letter first.
    LaterLetterFirst,
    /// A job of a listing's letter is done.
    ListingTaken,
    /// The target of I and K is read from the third field.
    TargetThird,
    /// The exponent is read as 16 bits.
    NarrowExponent,
    /// Jobs read n and r as digits.
    DigitsInJobs,
    /// The value of S is left at 0.
    NoValue,
    /// X is refused as a job.
    ExerciseRefused,
    /// Jobs of X read n and r as digits.
    DigitsInExercises,
    /// The seed is read as 32 bits.
    NarrowSeed,
    /// X counts no change.
    UncountedExercise,
    /// X leaves its plan as it was made, in an open plan.
    OpenExercise,
    /// An emptied slot keeps its words.
    WordsAfterClear,
    /// A plan of fewer pairs leaves words of the one before it.
    WordsAfterKeep,
    /// The digits of a text are read by a wrong step.
    Misread(Text, Step),
    /// Other pairs are listed than are held, or compared.
    Mislisted(Listing),
    /// W tells wrong places.
    Misplaced(Placing),
    /// Jobs of X are held to a wrong limit of splits.
    Missplit(Limit),
}

/// A check of the calls.
type Check = fn(&dyn Calls);

/// Each fault, and a check that has to see it.
pub const FAULTS: [(Fault, Check); 46] = [
    (Fault::WorkBeforeShortBuffer, buffers::of_every_length),
    (Fault::OpenAfterShortBuffer, buffers::of_every_length),
    (Fault::CutReply, buffers::of_every_length),
    (Fault::LinesBeforeShortBuffer, buffers::of_every_line),
    (Fault::BlockNotClosed, paper::block_without_room),
    (Fault::FrontRefused, paper::session),
    (Fault::OpenAfterRefusal, refusals::one_after_another),
    (Fault::WordsAfterRefusal, refusals::one_after_another),
    (Fault::CountedRefusal, refusals::one_after_another),
    (Fault::WrittenRefusal, refusals::one_after_another),
    (Fault::ByteBehind, buffers::of_every_length),
    (Fault::ClearedBuffer, buffers::of_every_length),
    (Fault::DroppedByNoDesk, damage::of_every_kind),
    (Fault::ClearedNoDesk, damage::of_every_kind),
    (Fault::FormBeforeNoDesk, damage::of_every_kind),
    (Fault::BehindIgnored, damage::of_every_kind),
    (Fault::EmptyIgnored, damage::of_every_kind),
    (Fault::OrderIgnored, damage::of_every_kind),
    (Fault::JoinsIgnored, damage::of_every_kind),
    (Fault::BasesIgnored, damage::of_every_kind),
    (Fault::NarrowCount, damage::of_every_kind),
    (Fault::LetterIgnored, damage::of_any_word),
    (Fault::LeftIgnored, damage::of_any_word),
    (Fault::OpenMustBePlan, damage::of_any_word),
    (Fault::ChangesIgnored, damage::of_every_kind),
    (Fault::NoColumn, refusals::one_after_another),
    (Fault::LongLineCut, lines::at_the_limit),
    (Fault::LineEndsAtTen, lines::of_any_bytes),
    (Fault::LineEndsAtZero, lines::of_any_bytes),
    (Fault::SlotMissing, buffers::of_every_length),
    (Fault::SlotTwice, buffers::of_every_length),
    (Fault::LettersAlone, paper::survey),
    (Fault::FewestFirst, paper::survey),
    (Fault::LaterLetterFirst, buffers::of_every_length),
    (Fault::ListingTaken, jobs::of_every_letter),
    (Fault::TargetThird, jobs::of_every_number),
    (Fault::NarrowExponent, jobs::of_every_number),
    (Fault::DigitsInJobs, jobs::of_every_number),
    (Fault::NoValue, paper::session_in_jobs),
    (Fault::ExerciseRefused, jobs::beside_lines),
    (Fault::DigitsInExercises, paper::exercises),
    (Fault::NarrowSeed, paper::exercises),
    (Fault::UncountedExercise, paper::exercises),
    (Fault::OpenExercise, sessions::of_lines),
    (Fault::WordsAfterClear, paper::session_in_jobs),
    (Fault::WordsAfterKeep, sessions::of_lines),
];

/// Each wrong step from byte to value (E4) in each text, and a check that has to
/// see it. `digits_in_plans` types digits only, and so sees just the steps that
/// misread one.
pub fn misreadings() -> Vec<(Fault, Check)> {
    let mut faults: Vec<(Fault, Check)> = Vec::new();
    for text in TEXTS {
        let check = match text {
            Text::From | Text::To => bytes::in_words,
            Text::Code => bytes::in_codes,
        };
        for step in STEPS {
            faults.push((Fault::Misread(text, step), check));
        }
        for step in [Step::ThreeAndFour, Step::NineMissing] {
            faults.push((Fault::Misread(text, step), bytes::digits_in_plans));
        }
    }
    faults
}

/// Each wrong listing or comparison (E10), and a check that has to see it.
pub fn mislistings() -> Vec<(Fault, Check)> {
    let checks = LISTINGS.map(|listing| {
        let check: Check = match listing {
            Listing::AlwaysSame => tables::that_act_otherwise,
            _ => tables::beside_listings,
        };
        (Fault::Mislisted(listing), check)
    });
    checks.into()
}

/// Each wrong place (E7), and the checks that have to see it: one by the words of E7
/// alone, and two beside the second implementation.
pub fn misplacings() -> Vec<(Fault, Check)> {
    let checks: [Check; 3] = [
        paper::places::listed,
        places::of_full_plans,
        sessions::of_lines,
    ];
    let mut faults: Vec<(Fault, Check)> = Vec::new();
    for placing in PLACINGS {
        faults.extend(checks.map(|check| (Fault::Misplaced(placing), check)));
    }
    faults
}

/// Each wrong limit of splits (E3), and the checks that have to see it: one by the
/// words of E3 alone, one beside the second implementation, and for a limit that
/// is missing or another number, one that holds jobs to lines.
pub fn missplits() -> Vec<(Fault, Check)> {
    let mut faults: Vec<(Fault, Check)> = Vec::new();
    for limit in LIMITS {
        let fault = Fault::Missplit(limit);
        faults.push((fault, paper::splits));
        faults.push((fault, jobs::of_every_splits));
    }
    for limit in [Limit::Missing, Limit::OneMore, Limit::OneLess] {
        faults.push((Fault::Missplit(limit), jobs::beside_lines));
    }
    faults
}

/// Each mistake about stations (E5), and the checks that have to see it: one by the
/// words of E5 alone, and one beside the second implementation.
pub fn misnamings() -> Vec<(Naming, [Check; 2])> {
    let checks = NAMINGS.map(|naming| {
        let checks: [Check; 2] = match naming {
            Naming::LimitOfZero | Naming::LimitOfAny | Naming::LimitOfSum => {
                [paper::stations::limits, stations::at_their_limits]
            }
            Naming::CountedForZero | Naming::ZeroTold | Naming::SumTold => {
                [paper::stations::naming, stations::at_their_limits]
            }
            Naming::StationForgotten => [paper::stations::naming, refusals::one_after_another],
            Naming::JobRefused | Naming::StationAsValue => {
                [paper::stations::naming, stations::beside_lines]
            }
            Naming::NamedByShortBuffer => [paper::stations::naming, buffers::of_every_length],
            Naming::StationUnseen
            | Naming::StationModulo256
            | Naming::OthersUnseen
            | Naming::LastUnseen
            | Naming::NamedByNoDesk
            | Naming::CutByNoDesk => [paper::stations::damage, stations::damaged],
            _ => [paper::stations::naming, stations::of_every_number],
        };
        (naming, checks)
    });
    checks.into()
}

/// Each mistake about rights (E6), and the checks that have to see it: one by the
/// words of E6 alone, and one beside the second implementation.
pub fn misgivings() -> Vec<(Giving, [Check; 2])> {
    let checks = GIVINGS.map(|giving| {
        let checks: [Check; 2] = match giving {
            Giving::Counted | Giving::RightAsValue | Giving::JobRefused => {
                [paper::rights::giving, rights::beside_lines]
            }
            Giving::OnAllSlots | Giving::ToAllStations | Giving::BitsTogether => {
                [paper::rights::giving, rights::of_every_number]
            }
            Giving::SlotsTurned => [paper::rights::needed, rights::of_every_record],
            Giving::GivenByShortBuffer => [paper::rights::refused_gifts, buffers::of_every_length],
            Giving::Forgotten => [paper::rights::needed, rights::in_chains],
            Giving::NotLookedAt | Giving::OfTheNext | Giving::OneIsEnough => {
                [paper::rights::needed, rights::of_every_record]
            }
            Giving::EndTested => [paper::rights::shown, rights::of_every_record],
            Giving::ThreeUnseen
            | Giving::LastSlotUnseen
            | Giving::LastStationUnseen
            | Giving::OthersUnseen
            | Giving::MendedByNoDesk => [paper::rights::damage, rights::damaged],
            _ => [paper::rights::refused_gifts, rights::of_every_number],
        };
        (giving, checks)
    });
    checks.into()
}

/// Each mistake about the pairs held (E8), and the checks that have to see it: one by
/// the words of E8 alone, and one beside the second implementation.
pub fn misholdings() -> Vec<(Holding, [Check; 2])> {
    let checks = HOLDINGS.map(|holding| {
        let checks: [Check; 2] = match holding {
            Holding::OverwrittenLeft | Holding::EmptiedLeft | Holding::Stale => {
                [paper::pairs_held::moving, pairs_held::behind_changes]
            }
            Holding::TypedCounted | Holding::OpenCounted => {
                [paper::pairs_held::moving, sessions::of_lines]
            }
            Holding::MovedByLimit | Holding::MovedByResult => [
                paper::pairs_held::refused_changes,
                pairs_held::behind_changes,
            ],
            Holding::MovedByShortBuffer => {
                [paper::pairs_held::refused_changes, buffers::of_every_length]
            }
            Holding::Forgotten => [
                paper::pairs_held::refused_changes,
                refusals::one_after_another,
            ],
            Holding::FieldsTaken => [paper::pairs_held::asking, refusals::one_after_another],
            Holding::OneByte => [paper::pairs_held::most, pairs_held::beside_lines],
            Holding::Unseen
            | Holding::LowByteSeen
            | Holding::TooLowUnseen
            | Holding::TooHighUnseen
            | Holding::ZeroUnseen
            | Holding::OpenInSum
            | Holding::MendedByNoDesk => [paper::pairs_held::damage, pairs_held::damaged],
            _ => [paper::pairs_held::asking, pairs_held::beside_lines],
        };
        (holding, checks)
    });
    checks.into()
}

/// Each mistake about pieces of input, and the checks that have to see it: one by the
/// words of the header alone, and one beside the second implementation.
pub fn misfeedings() -> Vec<(Feeding, [Check; 2])> {
    let checks = FEEDINGS.map(|feeding| {
        let checks: [Check; 2] = match feeding {
            Feeding::AnsweredTwice
            | Feeding::BeginningTaken
            | Feeding::BeginningAnswered
            | Feeding::LastLineLeft
            | Feeding::Gap
            | Feeding::ByteBehind
            | Feeding::ClearedBuffer
            | Feeding::OpenAfterPiece => [paper::feeding::session, feeding::of_sessions],
            Feeding::EmptyLineSkipped
            | Feeding::OpenAfterRefusal
            | Feeding::StoppedByRefusal
            | Feeding::NumberOfRefusal
            | Feeding::RefusalsUnwritten
            | Feeding::ColumnUnwritten => [paper::feeding::refusals, feeding::of_sessions],
            Feeding::TakenShort
            | Feeding::ShortAfterLines
            | Feeding::OneByteMore
            | Feeding::OneLineEarly
            | Feeding::NoStop
            | Feeding::BeginningBehindStop => [paper::feeding::room, feeding::of_every_room],
            Feeding::EmptyNeedsNoRoom
            | Feeding::RoomByNeed
            | Feeding::TakenByShortBuffer
            | Feeding::OverlongAfterRefusal
            | Feeding::DroppedByShortBuffer => [paper::feeding::refused, feeding::of_every_room],
            Feeding::ShortBeforeNoDesk
            | Feeding::DroppedByNoDesk
            | Feeding::Unchecked
            | Feeding::CheckedByLines => [paper::feeding::refused, feeding::of_damaged],
            _ => [paper::feeding::long_lines, feeding::of_long_lines],
        };
        (feeding, checks)
    });
    checks.into()
}
