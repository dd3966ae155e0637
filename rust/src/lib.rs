//! A multi-pattern matcher whose code is proved: Aho-Corasick in a double array, a port of the byte part of daachorse 5.1.0 to Rattle.
//! Every call ends, refuses only with fixed numbers exactly when their condition holds, finds each occurrence once in the promised
//! order, and makes at most 2n - 1 moves on n bytes. This crate is not proved: it is a thin safe layer over the static library that is.
//!
//! ```
//! use rotspangle::{Kind, Matcher};
//!
//! let crew = Matcher::with_values(Kind::LeftmostLongest, [("T10", 10), ("T100", 100), ("LIVE NEUTRAL", 900)])?;
//! for found in crew.leftmost(b"T100 to pole 7. LIVE NEUTRAL, gloves!")? {
//!     println!("{}..{}: {}", found.start, found.end, found.value);
//! }
//! # Ok::<(), rotspangle::Refusal>(())
//! ```
//!
//! Limits: 1,024 patterns of 1 to 64 bytes, 65,536 cells, texts of up to 65,536 bytes. What lies beyond them is a [`Refusal`].

#![warn(missing_docs)]

pub mod lent;
mod matcher;
mod matches;
pub mod raw;
mod refusal;

pub use matcher::{Kind, Matcher};
pub use matches::{Match, Matches};
pub use refusal::Refusal;
