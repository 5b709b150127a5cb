//! The table and its log, with every length right by construction.
use crate::{calls, done, row_bytes, Refusal, CHUNK_SIZE, LOG_BYTES, STATE_WORDS};
use std::fmt;
use std::ops::{Deref, DerefMut, Range};

/// A buffer of its own, or one that is lent to it.
enum Held<'a, T: ?Sized> {
    Own(Box<T>),
    Lent(&'a mut T),
}

impl<T: ?Sized> Deref for Held<'_, T> {
    type Target = T;
    fn deref(&self) -> &T {
        match self {
            Held::Own(own) => own,
            Held::Lent(lent) => lent,
        }
    }
}

impl<T: ?Sized> DerefMut for Held<'_, T> {
    fn deref_mut(&mut self) -> &mut T {
        match self {
            Held::Own(own) => own,
            Held::Lent(lent) => lent,
        }
    }
}

/// What the gate says of a write.
#[derive(Clone, Copy, Debug, PartialEq, Eq)]
pub enum Verdict<'r> {
    /// Every image that a cut could leave obeys the sheet.
    Admitted {
        /// The choice points of the log and this write.
        points: u64,
        /// The read image with the write.
        image: &'r [u8],
    },
    /// Some image that a cut could leave breaks the sheet; nothing is recorded.
    Denied {
        /// The least choice number whose image is bad: bit i says whether point i is kept.
        choice: u64,
        /// That bad image.
        image: &'r [u8],
    },
    /// The write was not judged.
    Refused(Refusal),
}

/// An image that did not open, handed back as it was given, and the reason. `?` turns it into the reason alone
/// where that is what a function answers.
#[derive(Clone, PartialEq, Eq)]
pub struct Unopened {
    /// Why it did not open.
    pub why: Refusal,
    /// The image.
    pub image: Vec<u8>,
}

impl From<Unopened> for Refusal {
    fn from(unopened: Unopened) -> Refusal {
        unopened.why
    }
}

impl fmt::Display for Unopened {
    fn fmt(&self, f: &mut fmt::Formatter<'_>) -> fmt::Result {
        self.why.fmt(f)
    }
}

/// The image by its length: `unwrap` would print thousands of bytes otherwise.
impl fmt::Debug for Unopened {
    fn fmt(&self, f: &mut fmt::Formatter<'_>) -> fmt::Result {
        f.debug_struct("Unopened")
            .field("why", &self.why)
            .field("image", &format_args!("{} bytes", self.image.len()))
            .finish()
    }
}

impl std::error::Error for Unopened {}

/// A table under a rule sheet, with the writes that are outstanding on it.
///
/// It owns its memory ([`Region::open`]) or borrows it ([`Region::open_in`]), so nothing else touches that memory
/// while it lives; it keeps the sheet and the length, and hands every call the state as the calls before left it.
/// Those are the terms on which every image that a cut could leave is proved to obey the sheet, for writes that
/// [`Region::gate`] has admitted.
///
/// Once a table is open, no call on it is refused with [`Refusal::BadState`] or [`Refusal::BadSheet`]: the image
/// keeps its length, the state is what the calls left, and the sheet is the one that opened it. Each method names the
/// refusals that are left to it.
pub struct Region<'a> {
    state: Held<'a, [u64; STATE_WORDS]>,
    image: Held<'a, [u8]>,
    log: Held<'a, [u8; LOG_BYTES]>,
    sheet: Vec<u8>,
    work: Vec<u8>,
}

impl Region<'static> {
    /// Opens a table in memory of its own: judges the image and starts an empty log. Refused with
    /// [`Refusal::BadState`] (the image is longer than 4096 bytes), [`Refusal::BadSheet`] or
    /// [`Refusal::BrokenImage`], and then the image comes back in the error.
    ///
    /// ```
    /// use skaldrift::{Refusal, Region};
    ///
    /// // The sheet `1C 00` never holds.
    /// let unopened = Region::open(vec![1, 2, 3], &[0x1C, 0x00]).err().unwrap();
    /// assert_eq!(unopened.why, Refusal::BrokenImage);
    /// assert_eq!(unopened.image, [1, 2, 3]);
    /// ```
    pub fn open(image: Vec<u8>, sheet: &[u8]) -> Result<Self, Unopened> {
        let mut state = Box::new([0; STATE_WORDS]);
        let log = Box::new([0; LOG_BYTES]);
        if let Err(why) = done(calls::open(&mut state[..], &image, &log[..], sheet)) {
            return Err(Unopened { why, image });
        }
        Ok(Region {
            work: vec![0; image.len()],
            state: Held::Own(state),
            image: Held::Own(image.into_boxed_slice()),
            log: Held::Own(log),
            sheet: sheet.to_vec(),
        })
    }
}

impl<'a> Region<'a> {
    /// Opens a table in memory that is lent to it. What the state and the log buffer held before plays no role.
    /// Refused as [`Region::open`] is, and then the lent memory is as it was.
    pub fn open_in(
        image: &'a mut [u8],
        log: &'a mut [u8; LOG_BYTES],
        state: &'a mut [u64; STATE_WORDS],
        sheet: &[u8],
    ) -> Result<Self, Refusal> {
        done(calls::open(&mut state[..], image, &log[..], sheet))?;
        Ok(Region {
            work: vec![0; image.len()],
            state: Held::Lent(state),
            image: Held::Lent(image),
            log: Held::Lent(log),
            sheet: sheet.to_vec(),
        })
    }

    /// Opens the table again, under the same sheet: an empty log, as after a cut that keeps nothing. Refused with
    /// [`Refusal::BrokenImage`], and that only if a write that the gate didn't admit ([`Region::write`],
    /// [`ByTape::write`]) has reached the image: what it has admitted is proved to open again.
    pub fn reopen(&mut self) -> Result<(), Refusal> {
        done(calls::open(
            &mut self.state[..],
            &self.image,
            &self.log[..],
            &self.sheet,
        ))
    }

    /// The image at the last flush or cut.
    pub fn image(&self) -> &[u8] {
        &self.image
    }

    /// The image at the last flush or cut, for keeps. Outstanding writes are lost, as in a cut that keeps nothing.
    pub fn into_image(self) -> Vec<u8> {
        match self.image {
            Held::Own(own) => own.into_vec(),
            Held::Lent(lent) => lent.to_vec(),
        }
    }

    /// How many writes are outstanding.
    pub fn outstanding(&self) -> usize {
        self.state[0] as usize
    }

    /// The address and length of each outstanding write, oldest first.
    pub fn records(&self) -> impl Iterator<Item = (u64, u64)> + '_ {
        self.state[1..]
            .chunks_exact(2)
            .take(self.outstanding())
            .map(|r| (r[0], r[1]))
    }

    /// What is read at `addr`: the image with all outstanding writes applied. Refused with [`Refusal::OutOfRange`];
    /// reading meets nothing else but a bad state.
    pub fn read(&mut self, addr: usize, len: usize) -> Result<&[u8], Refusal> {
        done(calls::read(
            &self.state[..],
            &self.image,
            &self.log[..],
            &mut self.work,
            addr as u64,
            len as u64,
        ))?;
        Ok(&self.work[addr..addr + len])
    }

    /// Records a write that nobody judges. Refused with [`Refusal::OutOfRange`], [`Refusal::TooManyWrites`] or
    /// [`Refusal::TooManyBytes`]; a plain write meets nothing else but a bad state.
    pub fn write(&mut self, addr: usize, data: &[u8]) -> Result<(), Refusal> {
        done(calls::write(
            &mut self.state[..],
            &self.image,
            &mut self.log[..],
            addr as u64,
            data,
        ))
    }

    /// What [`Region::gate`] would say, its refusals too. Records nothing.
    pub fn judge(&mut self, addr: usize, data: &[u8]) -> Verdict<'_> {
        let mut report = 0;
        let number = calls::judge(
            &self.state[..],
            &self.image,
            &self.log[..],
            &self.sheet,
            &mut self.work,
            addr as u64,
            data,
            &mut report,
        );
        self.verdict(number, report)
    }

    /// Judges a write by every image that a cut could then leave, and records it if it is admitted. Refused with
    /// [`Refusal::OutOfRange`], [`Refusal::TooManyWrites`], [`Refusal::TooManyBytes`] or [`Refusal::TooManyPoints`];
    /// the gate meets nothing else but a bad state or sheet.
    pub fn gate(&mut self, addr: usize, data: &[u8]) -> Verdict<'_> {
        let mut report = 0;
        let number = calls::gate(
            &mut self.state[..],
            &self.image,
            &mut self.log[..],
            &self.sheet,
            &mut self.work,
            addr as u64,
            data,
            &mut report,
        );
        self.verdict(number, report)
    }

    fn verdict(&self, number: u64, report: u64) -> Verdict<'_> {
        const DENIED: u64 = 8;
        if number == DENIED {
            return Verdict::Denied {
                choice: report,
                image: &self.work,
            };
        }
        match done(number) {
            Ok(()) => Verdict::Admitted {
                points: report,
                image: &self.work,
            },
            Err(why) => Verdict::Refused(why),
        }
    }

    /// Makes the read image the image, and empties the log. Never refused: a flush meets only a bad state, which a
    /// table doesn't have.
    pub fn flush(&mut self) -> Result<(), Refusal> {
        done(calls::flush(
            &mut self.state[..],
            &mut self.image,
            &self.log[..],
        ))
    }

    /// A power cut: `keep(w, c)` says whether the bytes of outstanding write w (oldest first) in chunk c had reached
    /// the memory. It is asked once for each choice point, in their order: oldest write first, and of a write the
    /// chunks that it touches, lowest first. Answers how many were kept.
    ///
    /// Never refused: a cut meets only a bad state, which a table doesn't have, and bad rows, which are made here in
    /// the right shape.
    pub fn cut(&mut self, mut keep: impl FnMut(usize, usize) -> bool) -> Result<u64, Refusal> {
        let width = row_bytes(self.image.len());
        let mut rows = vec![0u8; self.outstanding() * width];
        for (write, (addr, len)) in self.records().enumerate() {
            for chunk in touched(addr as usize, len as usize) {
                if keep(write, chunk) {
                    rows[write * width + chunk / 8] |= 0x80 >> (chunk % 8);
                }
            }
        }
        let mut report = 0;
        done(calls::cut(
            &mut self.state[..],
            &mut self.image,
            &self.log[..],
            &rows,
            &mut report,
        ))?;
        Ok(report)
    }

    /// The same table by a tape of cut choices fixed beforehand, whose epoch starts at byte `start` (0 at first).
    /// Writes that are outstanding already are the epoch's first, and have its first rows.
    pub fn by_tape<'r>(&'r mut self, tape: &'r [u8], start: u64) -> ByTape<'r, 'a> {
        ByTape {
            filled: self.outstanding() == 0,
            predicted: self.image.to_vec(),
            region: self,
            tape,
            start,
        }
    }
}

/// The chunks that a write touches: none if it is empty.
fn touched(addr: usize, len: usize) -> Range<usize> {
    match len {
        0 => 0..0,
        _ => addr / CHUNK_SIZE..(addr + len).div_ceil(CHUNK_SIZE),
    }
}

/// A table whose every recorded write, flush and cut goes by a tape. The table itself can only be looked at while it
/// does, so that none goes past it.
///
/// As on a [`Region`], no call is refused with [`Refusal::BadState`] or [`Refusal::BadSheet`]: the predicted image has
/// the table's length too.
pub struct ByTape<'r, 'a> {
    region: &'r mut Region<'a>,
    tape: &'r [u8],
    start: u64,
    predicted: Vec<u8>,
    filled: bool,
}

impl<'a> ByTape<'_, 'a> {
    /// The table, to look at.
    pub fn region(&self) -> &Region<'a> {
        self.region
    }

    /// Where the present epoch starts on the tape.
    pub fn start(&self) -> u64 {
        self.start
    }

    /// The predicted image, as the last accepted write, flush or cut by tape left it. Before the first it is the image,
    /// and `None` if writes were outstanding already: only an accepted call reads what the tape says of them.
    pub fn predicted(&self) -> Option<&[u8]> {
        self.filled.then_some(&self.predicted[..])
    }

    /// [`Region::read`], which uses no tape.
    pub fn read(&mut self, addr: usize, len: usize) -> Result<&[u8], Refusal> {
        self.region.read(addr, len)
    }

    /// [`Region::judge`], which uses no tape. In a session it comes before each [`ByTape::write`].
    pub fn judge(&mut self, addr: usize, data: &[u8]) -> Verdict<'_> {
        self.region.judge(addr, data)
    }

    /// Opens the table again, and keeps the start. Refused as [`Region::reopen`] is, and with
    /// [`Refusal::NotPredicted`] while writes are outstanding: they would be lost, an end of the epoch that no tape
    /// foretells. That refusal is this method's own, since the library's opening knows of no tape.
    pub fn reopen(&mut self) -> Result<(), Refusal> {
        if self.region.outstanding() != 0 {
            return Err(Refusal::NotPredicted);
        }
        self.region.reopen()
    }

    /// Records a write that nobody judges, and answers the predicted image with it. In a session [`ByTape::judge`]
    /// comes first. Refused as [`Region::write`] is, and with [`Refusal::BadTape`] or [`Refusal::BadRows`].
    pub fn write(&mut self, addr: usize, data: &[u8]) -> Result<&[u8], Refusal> {
        done(calls::tape_write(
            &mut self.region.state[..],
            &self.region.image,
            &mut self.region.log[..],
            self.tape,
            self.start,
            &mut self.predicted,
            addr as u64,
            data,
        ))?;
        self.filled = true;
        Ok(&self.predicted)
    }

    /// A flush where the tape foretells one. Refused with [`Refusal::BadTape`], [`Refusal::BadRows`] or
    /// [`Refusal::NotPredicted`]; a flush by tape meets nothing else but a bad state.
    pub fn flush(&mut self) -> Result<(), Refusal> {
        done(calls::tape_flush(
            &mut self.region.state[..],
            &mut self.region.image,
            &self.region.log[..],
            self.tape,
            &mut self.start,
            &mut self.predicted,
        ))?;
        self.filled = true;
        Ok(())
    }

    /// A cut where the tape foretells one: what it keeps stands on the tape. Answers how many choice points were
    /// kept. Refused as [`ByTape::flush`] is.
    pub fn cut(&mut self) -> Result<u64, Refusal> {
        let mut report = 0;
        done(calls::tape_cut(
            &mut self.region.state[..],
            &mut self.region.image,
            &self.region.log[..],
            self.tape,
            &mut self.start,
            &mut self.predicted,
            &mut report,
        ))?;
        self.filled = true;
        Ok(report)
    }
}
