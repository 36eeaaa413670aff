//! A second implementation of the sort plan desk, written from the papers.
//! It keeps words as strings of digits and plans as ordered maps, and follows
//! the definitions word by word: it is made to be read and compared with, not
//! to be fast. Document 01 decides on records and numbers, with change requests
//! E1 for the blocks of W, E2 for the order of U's lines, E3 for the plans of X, E5
//! for the stations, E6 for their rights, E7 for the places of W and E8 for the pairs
//! of H, and document 004 on words, bases and maps. The tables of E10, which may be laid beside a listing,
//! have a module of their own and no limits.

pub mod basis;
pub mod desk;
pub mod exercise;
pub mod line;
pub mod maps;
pub mod pairs_held;
pub mod plan;
pub mod records;
pub mod refusal;
pub mod rights;
pub mod stations;
pub mod tables;
pub mod words;

pub use basis::{Fault, Flaw, Side};
pub use desk::{session, Desk, OpenPlan};
pub use line::LINE_BYTES;
pub use pairs_held::PairsHeld;
pub use plan::{Image, Match, Placed, Plan, Routed};
pub use records::Record;
pub use refusal::Refusal;
pub use rights::{Right, Rights};
pub use stations::{Stations, COUNT_LIMIT, STATIONS};
pub use words::{Shape, Word, CODE_DIGITS, PAIRS, WORD_DIGITS};
