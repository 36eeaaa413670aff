//! The checks: each compares some calls with the second implementation on many
//! inputs, and fails too if a kind of answer never came up. They take any offer
//! of the calls, so that broken copies can be held to the same.

pub mod buffers;
pub mod bytes;
pub mod damage;
pub mod feeding;
pub mod jobs;
pub mod lines;
pub mod pairs_held;
pub mod paper;
pub mod places;
pub mod refusals;
pub mod rights;
pub mod sessions;
pub mod side_by_side;
pub mod stations;
pub mod tables;

use crate::calls::Calls;

/// A check and its name.
pub type Check = (&'static str, fn(&dyn Calls));

/// Every check, those that take long behind the others.
pub const ALL: [Check; 68] = [
    ("paper::session", paper::session),
    ("paper::session_in_jobs", paper::session_in_jobs),
    ("paper::block_without_room", paper::block_without_room),
    ("paper::survey", paper::survey),
    ("paper::exercises", paper::exercises),
    ("paper::exercises_refused", paper::exercises_refused),
    ("paper::splits", paper::splits),
    ("paper::stations::naming", paper::stations::naming),
    ("paper::stations::limits", paper::stations::limits),
    ("paper::stations::damage", paper::stations::damage),
    ("paper::rights::giving", paper::rights::giving),
    ("paper::rights::refused_gifts", paper::rights::refused_gifts),
    ("paper::rights::needed", paper::rights::needed),
    ("paper::rights::shown", paper::rights::shown),
    ("paper::rights::damage", paper::rights::damage),
    ("paper::places::listed", paper::places::listed),
    ("paper::pairs_held::moving", paper::pairs_held::moving),
    ("paper::pairs_held::asking", paper::pairs_held::asking),
    ("paper::pairs_held::most", paper::pairs_held::most),
    (
        "paper::pairs_held::refused_changes",
        paper::pairs_held::refused_changes,
    ),
    ("paper::pairs_held::damage", paper::pairs_held::damage),
    ("paper::refusals_of_calls", paper::refusals_of_calls),
    ("paper::feeding::session", paper::feeding::session),
    ("paper::feeding::refusals", paper::feeding::refusals),
    ("paper::feeding::long_lines", paper::feeding::long_lines),
    ("paper::feeding::room", paper::feeding::room),
    ("paper::feeding::refused", paper::feeding::refused),
    ("lines::of_any_bytes", lines::of_any_bytes),
    ("lines::at_the_limit", lines::at_the_limit),
    ("lines::for_every_slot", lines::for_every_slot),
    ("bytes::digits_in_plans", bytes::digits_in_plans),
    ("jobs::of_every_letter", jobs::of_every_letter),
    ("jobs::in_chains", jobs::in_chains),
    ("jobs::of_every_number", jobs::of_every_number),
    ("jobs::of_every_exercise", jobs::of_every_exercise),
    ("jobs::of_every_splits", jobs::of_every_splits),
    ("jobs::beside_lines", jobs::beside_lines),
    ("stations::of_every_number", stations::of_every_number),
    ("stations::beside_lines", stations::beside_lines),
    ("stations::at_their_limits", stations::at_their_limits),
    ("stations::damaged", stations::damaged),
    ("rights::of_every_number", rights::of_every_number),
    ("rights::beside_lines", rights::beside_lines),
    ("rights::of_every_record", rights::of_every_record),
    ("rights::in_chains", rights::in_chains),
    ("rights::damaged", rights::damaged),
    ("pairs_held::beside_lines", pairs_held::beside_lines),
    ("pairs_held::behind_changes", pairs_held::behind_changes),
    ("pairs_held::damaged", pairs_held::damaged),
    ("places::of_full_plans", places::of_full_plans),
    ("places::of_long_words", places::of_long_words),
    ("buffers::of_every_length", buffers::of_every_length),
    ("buffers::of_every_line", buffers::of_every_line),
    ("refusals::one_after_another", refusals::one_after_another),
    ("damage::of_every_kind", damage::of_every_kind),
    ("damage::of_any_word", damage::of_any_word),
    ("sessions::of_full_desks", sessions::of_full_desks),
    ("tables::beside_listings", tables::beside_listings),
    ("tables::that_act_otherwise", tables::that_act_otherwise),
    ("bytes::in_words", bytes::in_words),
    ("bytes::in_codes", bytes::in_codes),
    ("sessions::of_lines", sessions::of_lines),
    ("sessions::with_jobs", sessions::with_jobs),
    ("feeding::of_long_lines", feeding::of_long_lines),
    ("feeding::of_every_room", feeding::of_every_room),
    ("feeding::of_damaged", feeding::of_damaged),
    ("feeding::cut_anywhere", feeding::cut_anywhere),
    ("feeding::of_sessions", feeding::of_sessions),
];
