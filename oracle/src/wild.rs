//! Damaged tables and wild search values: cases thrown with dice, searched by the model of
//! `damage.rs`. Some of them are recorded in the sample.

mod case;
mod course;
mod tables;
mod tally;
mod texts;
mod throws;
mod values;

pub use case::{is_long, thrown, Case};
pub use course::{searched, start, Course};
pub use tally::{cases, run_tally};

/// A search that gives matches still is left alone after so many calls.
pub const CALLS: u32 = 12;
