//! The calls of the library of plans and a desk in plain Rust, written for
//! speed: what the proved ones are measured against. The program in `main.rs`
//! measures the library, and the one in `bin/program.rs` a desk program, beside the
//! versions in `served`. Both print their `aims` and draw a `chart`.

pub mod aims;
pub mod arrays;
pub mod chart;
pub mod measure;
pub mod options;
pub mod processor;
pub mod served;
pub mod sessions;
pub mod work;
