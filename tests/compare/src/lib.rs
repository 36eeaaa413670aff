//! Runs a desk program beside the second implementation and tells where they
//! differ: on the worked cases, and on sessions made from seeds. The parts:
//! the program's run, the judgement of its output, the shrinking of an input
//! that shows a difference, and the suite that does all of it and counts. Pairs of
//! sessions, in which one station has to get the same replies, are held to each
//! other and not to the second implementation.

pub mod arguments;
pub mod judge;
pub mod pairs;
pub mod program;
pub mod replies;
pub mod report;
pub mod shrink;
pub mod suite;
