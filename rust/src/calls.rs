//! The calls on plain slices, each answering the number that document 01 gives it. They are safe on any
//! contents and any lengths: a Rust slice is there as long as it is lent, a `&mut` slice overlaps no other,
//! and that is all that the proved functions ask. [`crate::Region`] is the same with the lengths right by
//! construction.
//!
//! What a call answers, reports and leaves behind is said in `include/skaldrift.h`, at the function that each
//! names.
use crate::sys;

/// The words of a state, 65: `skaldrift_state_words` of `include/skaldrift.h`.
pub fn state_words() -> u64 {
    // SAFETY: no memory is lent.
    unsafe { sys::skaldrift_state_words() }
}

/// Judges the image and starts an empty log: `skaldrift_open` of `include/skaldrift.h`.
pub fn open(state: &mut [u64], image: &[u8], log: &[u8], sheet: &[u8]) -> u64 {
    // SAFETY: the slices are there, and `state`, which alone is changed, overlaps none of them.
    unsafe {
        sys::skaldrift_open(
            state.as_mut_ptr(),
            state.len(),
            image.as_ptr(),
            image.len(),
            log.as_ptr(),
            log.len(),
            sheet.as_ptr(),
            sheet.len(),
        )
    }
}

/// Records a write that nobody judges: `skaldrift_write` of `include/skaldrift.h`.
pub fn write(state: &mut [u64], image: &[u8], log: &mut [u8], addr: u64, data: &[u8]) -> u64 {
    // SAFETY: the slices are there, and a `&mut` slice overlaps no other.
    unsafe {
        sys::skaldrift_write(
            state.as_mut_ptr(),
            state.len(),
            image.as_ptr(),
            image.len(),
            log.as_mut_ptr(),
            log.len(),
            addr,
            data.as_ptr(),
            data.len(),
        )
    }
}

/// Fills `work` with the read image: `skaldrift_read` of `include/skaldrift.h`.
pub fn read(state: &[u64], image: &[u8], log: &[u8], work: &mut [u8], addr: u64, len: u64) -> u64 {
    // SAFETY: the slices are there, and a `&mut` slice overlaps no other.
    unsafe {
        sys::skaldrift_read(
            state.as_ptr(),
            state.len(),
            image.as_ptr(),
            image.len(),
            log.as_ptr(),
            log.len(),
            work.as_mut_ptr(),
            work.len(),
            addr,
            len,
        )
    }
}

/// Makes the read image the image: `skaldrift_flush` of `include/skaldrift.h`.
pub fn flush(state: &mut [u64], image: &mut [u8], log: &[u8]) -> u64 {
    // SAFETY: the slices are there, and a `&mut` slice overlaps no other.
    unsafe {
        sys::skaldrift_flush(
            state.as_mut_ptr(),
            state.len(),
            image.as_mut_ptr(),
            image.len(),
            log.as_ptr(),
            log.len(),
        )
    }
}

/// A power cut that keeps what the rows say: `skaldrift_cut` of `include/skaldrift.h`.
pub fn cut(state: &mut [u64], image: &mut [u8], log: &[u8], rows: &[u8], report: &mut u64) -> u64 {
    // SAFETY: the slices are there, and a `&mut` overlaps no other.
    unsafe {
        sys::skaldrift_cut(
            state.as_mut_ptr(),
            state.len(),
            image.as_mut_ptr(),
            image.len(),
            log.as_ptr(),
            log.len(),
            rows.as_ptr(),
            rows.len(),
            report,
        )
    }
}

/// Judges a write and records nothing: `skaldrift_judge` of `include/skaldrift.h`.
#[allow(clippy::too_many_arguments)]
pub fn judge(
    state: &[u64],
    image: &[u8],
    log: &[u8],
    sheet: &[u8],
    work: &mut [u8],
    addr: u64,
    data: &[u8],
    report: &mut u64,
) -> u64 {
    // SAFETY: the slices are there, and a `&mut` overlaps no other.
    unsafe {
        sys::skaldrift_judge(
            state.as_ptr(),
            state.len(),
            image.as_ptr(),
            image.len(),
            log.as_ptr(),
            log.len(),
            sheet.as_ptr(),
            sheet.len(),
            work.as_mut_ptr(),
            work.len(),
            addr,
            data.as_ptr(),
            data.len(),
            report,
        )
    }
}

/// Judges a write and records it if it is admitted: `skaldrift_gate` of `include/skaldrift.h`.
#[allow(clippy::too_many_arguments)]
pub fn gate(
    state: &mut [u64],
    image: &[u8],
    log: &mut [u8],
    sheet: &[u8],
    work: &mut [u8],
    addr: u64,
    data: &[u8],
    report: &mut u64,
) -> u64 {
    // SAFETY: the slices are there, and a `&mut` overlaps no other.
    unsafe {
        sys::skaldrift_gate(
            state.as_mut_ptr(),
            state.len(),
            image.as_ptr(),
            image.len(),
            log.as_mut_ptr(),
            log.len(),
            sheet.as_ptr(),
            sheet.len(),
            work.as_mut_ptr(),
            work.len(),
            addr,
            data.as_ptr(),
            data.len(),
            report,
        )
    }
}

/// Records a write and predicts the image: `skaldrift_tape_write` of `include/skaldrift.h`.
#[allow(clippy::too_many_arguments)]
pub fn tape_write(
    state: &mut [u64],
    image: &[u8],
    log: &mut [u8],
    tape: &[u8],
    start: u64,
    predicted: &mut [u8],
    addr: u64,
    data: &[u8],
) -> u64 {
    // SAFETY: the slices are there, and a `&mut` slice overlaps no other.
    unsafe {
        sys::skaldrift_tape_write(
            state.as_mut_ptr(),
            state.len(),
            image.as_ptr(),
            image.len(),
            log.as_mut_ptr(),
            log.len(),
            tape.as_ptr(),
            tape.len(),
            start,
            predicted.as_mut_ptr(),
            predicted.len(),
            addr,
            data.as_ptr(),
            data.len(),
        )
    }
}

/// A flush where the tape foretells one: `skaldrift_tape_flush` of `include/skaldrift.h`.
pub fn tape_flush(
    state: &mut [u64],
    image: &mut [u8],
    log: &[u8],
    tape: &[u8],
    start: &mut u64,
    predicted: &mut [u8],
) -> u64 {
    // SAFETY: the slices are there, and a `&mut` overlaps no other.
    unsafe {
        sys::skaldrift_tape_flush(
            state.as_mut_ptr(),
            state.len(),
            image.as_mut_ptr(),
            image.len(),
            log.as_ptr(),
            log.len(),
            tape.as_ptr(),
            tape.len(),
            start,
            predicted.as_mut_ptr(),
            predicted.len(),
        )
    }
}

/// A cut where the tape foretells one: `skaldrift_tape_cut` of `include/skaldrift.h`.
pub fn tape_cut(
    state: &mut [u64],
    image: &mut [u8],
    log: &[u8],
    tape: &[u8],
    start: &mut u64,
    predicted: &mut [u8],
    report: &mut u64,
) -> u64 {
    // SAFETY: the slices are there, and a `&mut` overlaps no other.
    unsafe {
        sys::skaldrift_tape_cut(
            state.as_mut_ptr(),
            state.len(),
            image.as_mut_ptr(),
            image.len(),
            log.as_ptr(),
            log.len(),
            tape.as_ptr(),
            tape.len(),
            start,
            predicted.as_mut_ptr(),
            predicted.len(),
            report,
        )
    }
}

/// The example application's setup: `skaldrift_setup` of `include/skaldrift.h`.
pub fn setup(image: &mut [u8], addr: u64, val0: u8) -> u64 {
    // SAFETY: the slice is there.
    unsafe { sys::skaldrift_setup(image.as_mut_ptr(), image.len(), addr, val0) }
}

/// The example application: `skaldrift_run` of `include/skaldrift.h`.
pub fn run(
    image: &mut [u8],
    log: &mut [u8],
    work: &mut [u8],
    addr: u64,
    val0: u8,
    val1: u8,
    rounds: u64,
) -> u64 {
    // SAFETY: the slices are there, and a `&mut` slice overlaps no other.
    unsafe {
        sys::skaldrift_run(
            image.as_mut_ptr(),
            image.len(),
            log.as_mut_ptr(),
            log.len(),
            work.as_mut_ptr(),
            work.len(),
            addr,
            val0,
            val1,
            rounds,
        )
    }
}
