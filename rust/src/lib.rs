//! A formula table in persistent memory that a power cut cannot leave half patched: a safe wrapper over the
//! proved library (`libskaldrift.a`).
//!
//! A [`Region`] is a table with the writes that are outstanding on it. [`Region::gate`] records a write only if
//! every image that a power cut could then leave obeys the table's rule sheet. The lengths are right by
//! construction, so of the library's refusals only those are left that a caller can do something about.
//!
//! A method of [`Region`] or [`ByTape`] panics if its call answers a number that no call of this library gives: then
//! the archive that was linked is another one.
//!
//! ```
//! use skaldrift::{Refusal, Region, Verdict};
//!
//! # fn main() -> Result<(), Refusal> {
//! // The sheet says that byte 7 equals byte 8: a formula's two halves, which lie in two chunks.
//! let sheet = [0x14, 0x00, 0x1C, 0x00, 0x20];
//! let mut table = Region::open(vec![0; 16], &sheet)?;
//!
//! // One byte is one choice point: a cut keeps it or not, and the sheet holds either way.
//! assert!(matches!(table.gate(3, &[0xAA]), Verdict::Admitted { points: 1, .. }));
//!
//! // Both halves at once lie in two chunks, and choice 2 keeps only the first.
//! match table.gate(7, &[0xBB, 0xBB]) {
//!     Verdict::Denied { choice, image } => {
//!         assert_eq!(choice, 2);
//!         assert_eq!((image[7], image[8]), (0xBB, 0x00));
//!     }
//!     other => panic!("{other:?}"),
//! }
//! assert_eq!(table.outstanding(), 1);
//!
//! // The power goes, and chunk 0 of the first write had reached the memory.
//! assert_eq!(table.cut(|write, chunk| (write, chunk) == (0, 0))?, 1);
//!
//! // What is left opens again.
//! let mut table = Region::open(table.into_image(), &sheet)?;
//! assert_eq!(table.read(3, 1)?, [0xAA]);
//! assert_eq!(table.read(7, 2)?, [0x00, 0x00]);
//! # Ok(())
//! # }
//! ```
#![deny(unsafe_op_in_unsafe_fn)]
#![warn(missing_docs)]

pub mod calls;
mod region;
#[allow(missing_docs)]
pub mod sys;

pub use region::{ByTape, Region, Unopened, Verdict};

/// The words of a state: the count of outstanding writes, then address and length of each of 32 records.
pub const STATE_WORDS: usize = 65;
/// The bytes of a log buffer.
pub const LOG_BYTES: usize = 1024;
/// The most bytes of an image.
pub const IMAGE_LIMIT: usize = 4096;
/// The most outstanding writes.
pub const WRITES_LIMIT: usize = 32;
/// The bytes of a chunk, which stand or fall together.
pub const CHUNK_SIZE: usize = 8;

/// The chunks of an image of `bytes` bytes.
pub const fn chunks(bytes: usize) -> usize {
    bytes.div_ceil(CHUNK_SIZE)
}

/// The bytes of a row for an image of `bytes` bytes: a bit for each chunk, filled to a whole byte.
pub const fn row_bytes(bytes: usize) -> usize {
    chunks(bytes).div_ceil(8)
}

/// Why a call refused. A refused call leaves everything as it was.
#[derive(Clone, Copy, Debug, PartialEq, Eq, Hash)]
pub enum Refusal {
    /// 1: the image is longer than 4096 bytes, or the lent memory is no sound log.
    BadState,
    /// 2: addr + len is more than the image's length, in whole numbers.
    OutOfRange,
    /// 3: 32 writes are outstanding.
    TooManyWrites,
    /// 4: the outstanding bytes and these are more than 1024.
    TooManyBytes,
    /// 5: the sheet is empty, too long, of another edition, cut short, too deep or badly filled.
    BadSheet,
    /// 6: the image breaks the sheet.
    BrokenImage,
    /// 7: more than 16 choice points.
    TooManyPoints,
    /// 9: rows of wrong length, or a filling bit set.
    BadRows,
    /// 10: the tape's header is missing or neither 80 nor 00, or there are too few bytes for a row.
    BadTape,
    /// 11: a flush under 00, or a cut under 80.
    NotPredicted,
    /// 12: more than 1000 rounds.
    TooManyRounds,
}

impl Refusal {
    /// Every refusal, in the order of their numbers.
    pub const ALL: [Refusal; 11] = [
        Refusal::BadState,
        Refusal::OutOfRange,
        Refusal::TooManyWrites,
        Refusal::TooManyBytes,
        Refusal::BadSheet,
        Refusal::BrokenImage,
        Refusal::TooManyPoints,
        Refusal::BadRows,
        Refusal::BadTape,
        Refusal::NotPredicted,
        Refusal::TooManyRounds,
    ];

    /// Its number.
    pub const fn number(self) -> u64 {
        match self {
            Refusal::BadState => 1,
            Refusal::OutOfRange => 2,
            Refusal::TooManyWrites => 3,
            Refusal::TooManyBytes => 4,
            Refusal::BadSheet => 5,
            Refusal::BrokenImage => 6,
            Refusal::TooManyPoints => 7,
            Refusal::BadRows => 9,
            Refusal::BadTape => 10,
            Refusal::NotPredicted => 11,
            Refusal::TooManyRounds => 12,
        }
    }

    /// The refusal of a number. 0 is done and 8 is the gate's own, so these are none, and so is any number that no
    /// call gives.
    pub fn of(number: u64) -> Option<Refusal> {
        Refusal::ALL.into_iter().find(|why| why.number() == number)
    }
}

impl std::fmt::Display for Refusal {
    fn fmt(&self, f: &mut std::fmt::Formatter<'_>) -> std::fmt::Result {
        f.write_str(match self {
            Refusal::BadState => "the image is too long, or the lent memory is no sound log",
            Refusal::OutOfRange => "outside the image",
            Refusal::TooManyWrites => "32 writes are outstanding",
            Refusal::TooManyBytes => "more than 1024 outstanding bytes",
            Refusal::BadSheet => "the sheet is malformed",
            Refusal::BrokenImage => "the image breaks the sheet",
            Refusal::TooManyPoints => "more than 16 choice points",
            Refusal::BadRows => "rows of wrong length, or a filling bit set",
            Refusal::BadTape => "the tape has no epoch here",
            Refusal::NotPredicted => "the tape foretells another end",
            Refusal::TooManyRounds => "more than 1000 rounds",
        })
    }
}

impl std::error::Error for Refusal {}

/// Done, or the refusal of a number.
///
/// # Panics
///
/// If no call of this library gives the number, or if it is 8 where nothing is judged. The proved archive answers
/// neither, so another one is linked, and nothing that it has done can be trusted.
fn done(number: u64) -> Result<(), Refusal> {
    match number {
        0 => Ok(()),
        other => Err(Refusal::of(other).unwrap_or_else(|| {
            panic!("a call answered {other}: the linked archive is not this library's")
        })),
    }
}
