//! A second program for document 01: the formula region, its cuts and its gate.
//!
//! It is written from document 01 and the source's definitions alone and shares
//! no code with the proved library that it is compared with. It is meant to be
//! obviously right rather than quick: a log is a list of writes that own their
//! bytes, a rule sheet is a tree, and what a cut keeps is a set of points.
//!
//! The oracle: [`log`], [`sheet`], and the calls in [`region`], [`gate`], [`tape`]
//! and [`example`]. Each call takes the C function's arguments as slices, changes
//! the lent ones as document 01 says, and gives an [`Answer`].
//!
//! The comparison: [`case`] is one call with all it is lent, [`referee`] puts a case
//! to the oracle and to a desk under test, and [`trials`], [`exhaustive`],
//! [`random`] and [`session`] make the cases.

pub mod campaign;
pub mod capi;
pub mod case;
pub mod desk;
pub mod example;
pub mod exhaustive;
pub mod gate;
pub mod log;
pub mod quick;
pub mod random;
pub mod referee;
pub mod region;
pub mod rng;
pub mod session;
pub mod sheet;
pub mod tape;
pub mod trials;

/// An image has at most this many bytes.
pub const LONGEST_IMAGE: usize = 4096;
/// Bytes in a chunk.
pub const CHUNK: usize = 8;
/// Outstanding writes in a log, at most.
pub const MOST_WRITES: usize = 32;
/// Bytes in the log buffer, and so outstanding data bytes at most.
pub const LOG_BYTES: usize = 1024;
/// A state is the count, then the address and the length of each record.
pub const STATE_WORDS: usize = 1 + 2 * MOST_WRITES;
/// The gate judges no more choice points than this.
pub const MOST_POINTS: usize = 16;
/// A sheet has at most this many bytes.
pub const LONGEST_SHEET: usize = 512;
/// A rule is at most this deep.
pub const DEEPEST: usize = 8;
/// The example runs at most this many rounds.
pub const MOST_ROUNDS: u64 = 1000;

/// Document 01's numbers.
pub mod number {
    pub const DONE: u64 = 0;
    pub const MISSHAPEN: u64 = 1;
    pub const OUTSIDE: u64 = 2;
    pub const TOO_MANY_WRITES: u64 = 3;
    pub const TOO_MANY_BYTES: u64 = 4;
    pub const BAD_SHEET: u64 = 5;
    pub const IMAGE_BREAKS_SHEET: u64 = 6;
    pub const TOO_MANY_POINTS: u64 = 7;
    pub const DENIED: u64 = 8;
    pub const BAD_ROWS: u64 = 9;
    pub const BAD_TAPE: u64 = 10;
    pub const OTHER_ENDING: u64 = 11;
    pub const TOO_MANY_ROUNDS: u64 = 12;
}

/// What a call says: its number, and n, m or kept where one is reported.
#[derive(Clone, Copy, Debug, PartialEq, Eq)]
pub struct Answer {
    pub number: u64,
    pub report: Option<u64>,
}

impl Answer {
    pub const fn done() -> Answer {
        Answer { number: number::DONE, report: None }
    }

    pub const fn done_reporting(value: u64) -> Answer {
        Answer { number: number::DONE, report: Some(value) }
    }

    pub const fn refused(number: u64) -> Answer {
        Answer { number, report: None }
    }

    /// The one refusal that reports something: the least bad choice number.
    pub const fn denied(choice: u64) -> Answer {
        Answer { number: number::DENIED, report: Some(choice) }
    }
}
