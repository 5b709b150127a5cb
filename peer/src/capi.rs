//! The C functions of `libskaldrift.a`, and the desk that calls them.
//!
//! The declarations are compiled always, so that they are checked even where nothing
//! is linked; the desk needs the feature `linked`.

unsafe extern "C" {
    pub fn skaldrift_open(
        state: *mut u64,
        state_len: usize,
        image: *const u8,
        image_len: usize,
        log: *const u8,
        log_len: usize,
        sheet: *const u8,
        sheet_len: usize,
    ) -> u64;

    pub fn skaldrift_write(
        state: *mut u64,
        state_len: usize,
        image: *const u8,
        image_len: usize,
        log: *mut u8,
        log_len: usize,
        addr: u64,
        data: *const u8,
        data_len: usize,
    ) -> u64;

    pub fn skaldrift_read(
        state: *const u64,
        state_len: usize,
        image: *const u8,
        image_len: usize,
        log: *const u8,
        log_len: usize,
        work: *mut u8,
        work_len: usize,
        addr: u64,
        len: u64,
    ) -> u64;

    pub fn skaldrift_flush(
        state: *mut u64,
        state_len: usize,
        image: *mut u8,
        image_len: usize,
        log: *const u8,
        log_len: usize,
    ) -> u64;

    pub fn skaldrift_judge(
        state: *const u64,
        state_len: usize,
        image: *const u8,
        image_len: usize,
        log: *const u8,
        log_len: usize,
        sheet: *const u8,
        sheet_len: usize,
        work: *mut u8,
        work_len: usize,
        addr: u64,
        data: *const u8,
        data_len: usize,
        report: *mut u64,
    ) -> u64;

    pub fn skaldrift_cut(
        state: *mut u64,
        state_len: usize,
        image: *mut u8,
        image_len: usize,
        log: *const u8,
        log_len: usize,
        rows: *const u8,
        rows_len: usize,
        report: *mut u64,
    ) -> u64;

    pub fn skaldrift_gate(
        state: *mut u64,
        state_len: usize,
        image: *const u8,
        image_len: usize,
        log: *mut u8,
        log_len: usize,
        sheet: *const u8,
        sheet_len: usize,
        work: *mut u8,
        work_len: usize,
        addr: u64,
        data: *const u8,
        data_len: usize,
        report: *mut u64,
    ) -> u64;

    pub fn skaldrift_tape_write(
        state: *mut u64,
        state_len: usize,
        image: *const u8,
        image_len: usize,
        log: *mut u8,
        log_len: usize,
        tape: *const u8,
        tape_len: usize,
        start: u64,
        predicted: *mut u8,
        predicted_len: usize,
        addr: u64,
        data: *const u8,
        data_len: usize,
    ) -> u64;

    pub fn skaldrift_tape_flush(
        state: *mut u64,
        state_len: usize,
        image: *mut u8,
        image_len: usize,
        log: *const u8,
        log_len: usize,
        tape: *const u8,
        tape_len: usize,
        start: *mut u64,
        predicted: *mut u8,
        predicted_len: usize,
    ) -> u64;

    pub fn skaldrift_tape_cut(
        state: *mut u64,
        state_len: usize,
        image: *mut u8,
        image_len: usize,
        log: *const u8,
        log_len: usize,
        tape: *const u8,
        tape_len: usize,
        start: *mut u64,
        predicted: *mut u8,
        predicted_len: usize,
        report: *mut u64,
    ) -> u64;

    pub fn skaldrift_setup(image: *mut u8, image_len: usize, addr: u64, val0: u8) -> u64;

    pub fn skaldrift_run(
        image: *mut u8,
        image_len: usize,
        log: *mut u8,
        log_len: usize,
        work: *mut u8,
        work_len: usize,
        addr: u64,
        val0: u8,
        val1: u8,
        rounds: u64,
    ) -> u64;

    pub fn skaldrift_state_words() -> u64;
}

/// The library, reached through its C functions.
#[cfg(feature = "linked")]
pub struct Linked {
    /// Pass a null pointer for an empty buffer instead of one that points somewhere.
    pub null_for_empty: bool,
}

#[cfg(feature = "linked")]
mod linked {
    use super::*;
    use crate::desk::Desk;
    use std::ptr;

    impl Linked {
        pub fn state_words() -> u64 {
            // SAFETY: the function takes nothing.
            unsafe { skaldrift_state_words() }
        }

        fn lend<T>(&self, slice: &[T]) -> *const T {
            if slice.is_empty() && self.null_for_empty { ptr::null() } else { slice.as_ptr() }
        }

        fn lend_mut<T>(&self, slice: &mut [T]) -> *mut T {
            if slice.is_empty() && self.null_for_empty {
                ptr::null_mut()
            } else {
                slice.as_mut_ptr()
            }
        }
    }

    // SAFETY, for every call below: each pointer and length come from one slice, borrowed
    // for the whole call, mutably where the function may write; so no two overlap.
    impl Desk for Linked {
        fn open(&self, state: &mut [u64], image: &[u8], log: &[u8], sheet: &[u8]) -> u64 {
            unsafe {
                skaldrift_open(
                    self.lend_mut(state),
                    state.len(),
                    self.lend(image),
                    image.len(),
                    self.lend(log),
                    log.len(),
                    self.lend(sheet),
                    sheet.len(),
                )
            }
        }

        fn write(
            &self,
            state: &mut [u64],
            image: &[u8],
            log: &mut [u8],
            addr: u64,
            data: &[u8],
        ) -> u64 {
            unsafe {
                skaldrift_write(
                    self.lend_mut(state),
                    state.len(),
                    self.lend(image),
                    image.len(),
                    self.lend_mut(log),
                    log.len(),
                    addr,
                    self.lend(data),
                    data.len(),
                )
            }
        }

        fn read(
            &self,
            state: &[u64],
            image: &[u8],
            log: &[u8],
            work: &mut [u8],
            addr: u64,
            len: u64,
        ) -> u64 {
            unsafe {
                skaldrift_read(
                    self.lend(state),
                    state.len(),
                    self.lend(image),
                    image.len(),
                    self.lend(log),
                    log.len(),
                    self.lend_mut(work),
                    work.len(),
                    addr,
                    len,
                )
            }
        }

        fn flush(&self, state: &mut [u64], image: &mut [u8], log: &[u8]) -> u64 {
            unsafe {
                skaldrift_flush(
                    self.lend_mut(state),
                    state.len(),
                    self.lend_mut(image),
                    image.len(),
                    self.lend(log),
                    log.len(),
                )
            }
        }

        fn judge(
            &self,
            state: &[u64],
            image: &[u8],
            log: &[u8],
            sheet: &[u8],
            work: &mut [u8],
            addr: u64,
            data: &[u8],
            report: &mut u64,
        ) -> u64 {
            unsafe {
                skaldrift_judge(
                    self.lend(state),
                    state.len(),
                    self.lend(image),
                    image.len(),
                    self.lend(log),
                    log.len(),
                    self.lend(sheet),
                    sheet.len(),
                    self.lend_mut(work),
                    work.len(),
                    addr,
                    self.lend(data),
                    data.len(),
                    report,
                )
            }
        }

        fn cut(
            &self,
            state: &mut [u64],
            image: &mut [u8],
            log: &[u8],
            rows: &[u8],
            report: &mut u64,
        ) -> u64 {
            unsafe {
                skaldrift_cut(
                    self.lend_mut(state),
                    state.len(),
                    self.lend_mut(image),
                    image.len(),
                    self.lend(log),
                    log.len(),
                    self.lend(rows),
                    rows.len(),
                    report,
                )
            }
        }

        fn gate(
            &self,
            state: &mut [u64],
            image: &[u8],
            log: &mut [u8],
            sheet: &[u8],
            work: &mut [u8],
            addr: u64,
            data: &[u8],
            report: &mut u64,
        ) -> u64 {
            unsafe {
                skaldrift_gate(
                    self.lend_mut(state),
                    state.len(),
                    self.lend(image),
                    image.len(),
                    self.lend_mut(log),
                    log.len(),
                    self.lend(sheet),
                    sheet.len(),
                    self.lend_mut(work),
                    work.len(),
                    addr,
                    self.lend(data),
                    data.len(),
                    report,
                )
            }
        }

        fn tape_write(
            &self,
            state: &mut [u64],
            image: &[u8],
            log: &mut [u8],
            tape: &[u8],
            start: u64,
            predicted: &mut [u8],
            addr: u64,
            data: &[u8],
        ) -> u64 {
            unsafe {
                skaldrift_tape_write(
                    self.lend_mut(state),
                    state.len(),
                    self.lend(image),
                    image.len(),
                    self.lend_mut(log),
                    log.len(),
                    self.lend(tape),
                    tape.len(),
                    start,
                    self.lend_mut(predicted),
                    predicted.len(),
                    addr,
                    self.lend(data),
                    data.len(),
                )
            }
        }

        fn tape_flush(
            &self,
            state: &mut [u64],
            image: &mut [u8],
            log: &[u8],
            tape: &[u8],
            start: &mut u64,
            predicted: &mut [u8],
        ) -> u64 {
            unsafe {
                skaldrift_tape_flush(
                    self.lend_mut(state),
                    state.len(),
                    self.lend_mut(image),
                    image.len(),
                    self.lend(log),
                    log.len(),
                    self.lend(tape),
                    tape.len(),
                    start,
                    self.lend_mut(predicted),
                    predicted.len(),
                )
            }
        }

        fn tape_cut(
            &self,
            state: &mut [u64],
            image: &mut [u8],
            log: &[u8],
            tape: &[u8],
            start: &mut u64,
            predicted: &mut [u8],
            report: &mut u64,
        ) -> u64 {
            unsafe {
                skaldrift_tape_cut(
                    self.lend_mut(state),
                    state.len(),
                    self.lend_mut(image),
                    image.len(),
                    self.lend(log),
                    log.len(),
                    self.lend(tape),
                    tape.len(),
                    start,
                    self.lend_mut(predicted),
                    predicted.len(),
                    report,
                )
            }
        }

        fn setup(&self, image: &mut [u8], addr: u64, val0: u8) -> u64 {
            unsafe { skaldrift_setup(self.lend_mut(image), image.len(), addr, val0) }
        }

        fn run(
            &self,
            image: &mut [u8],
            log: &mut [u8],
            work: &mut [u8],
            addr: u64,
            val0: u8,
            val1: u8,
            rounds: u64,
        ) -> u64 {
            unsafe {
                skaldrift_run(
                    self.lend_mut(image),
                    image.len(),
                    self.lend_mut(log),
                    log.len(),
                    self.lend_mut(work),
                    work.len(),
                    addr,
                    val0,
                    val1,
                    rounds,
                )
            }
        }
    }
}
