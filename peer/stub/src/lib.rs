//! The C functions over the quick desk. It stands in for the proved library while the
//! comparison and the benchmark themselves are tried, and shows that the declarations
//! in `capi.rs` link.

#![allow(clippy::missing_safety_doc, clippy::too_many_arguments)]

use peer::desk::Desk;
use peer::quick::Quick;
use std::slice;

/// A null pointer may come with length 0.
unsafe fn lent<'a, T>(pointer: *const T, len: usize) -> &'a [T] {
    if len == 0 { &[] } else { unsafe { slice::from_raw_parts(pointer, len) } }
}

unsafe fn lent_mut<'a, T>(pointer: *mut T, len: usize) -> &'a mut [T] {
    if len == 0 { &mut [] } else { unsafe { slice::from_raw_parts_mut(pointer, len) } }
}

#[unsafe(no_mangle)]
pub extern "C" fn skaldrift_state_words() -> u64 {
    peer::STATE_WORDS as u64
}

#[unsafe(no_mangle)]
pub unsafe extern "C" fn skaldrift_open(
    state: *mut u64,
    state_len: usize,
    image: *const u8,
    image_len: usize,
    log: *const u8,
    log_len: usize,
    sheet: *const u8,
    sheet_len: usize,
) -> u64 {
    unsafe {
        Quick.open(
            lent_mut(state, state_len),
            lent(image, image_len),
            lent(log, log_len),
            lent(sheet, sheet_len),
        )
    }
}

#[unsafe(no_mangle)]
pub unsafe extern "C" fn skaldrift_write(
    state: *mut u64,
    state_len: usize,
    image: *const u8,
    image_len: usize,
    log: *mut u8,
    log_len: usize,
    addr: u64,
    data: *const u8,
    data_len: usize,
) -> u64 {
    unsafe {
        Quick.write(
            lent_mut(state, state_len),
            lent(image, image_len),
            lent_mut(log, log_len),
            addr,
            lent(data, data_len),
        )
    }
}

#[unsafe(no_mangle)]
pub unsafe extern "C" fn skaldrift_read(
    state: *const u64,
    state_len: usize,
    image: *const u8,
    image_len: usize,
    log: *const u8,
    log_len: usize,
    work: *mut u8,
    work_len: usize,
    addr: u64,
    len: u64,
) -> u64 {
    unsafe {
        Quick.read(
            lent(state, state_len),
            lent(image, image_len),
            lent(log, log_len),
            lent_mut(work, work_len),
            addr,
            len,
        )
    }
}

#[unsafe(no_mangle)]
pub unsafe extern "C" fn skaldrift_flush(
    state: *mut u64,
    state_len: usize,
    image: *mut u8,
    image_len: usize,
    log: *const u8,
    log_len: usize,
) -> u64 {
    unsafe {
        Quick.flush(lent_mut(state, state_len), lent_mut(image, image_len), lent(log, log_len))
    }
}

#[unsafe(no_mangle)]
pub unsafe extern "C" fn skaldrift_judge(
    state: *const u64,
    state_len: usize,
    image: *const u8,
    image_len: usize,
    log: *const u8,
    log_len: usize,
    sheet: *const u8,
    sheet_len: usize,
    work: *mut u8,
    work_len: usize,
    addr: u64,
    data: *const u8,
    data_len: usize,
    report: *mut u64,
) -> u64 {
    unsafe {
        Quick.judge(
            lent(state, state_len),
            lent(image, image_len),
            lent(log, log_len),
            lent(sheet, sheet_len),
            lent_mut(work, work_len),
            addr,
            lent(data, data_len),
            &mut *report,
        )
    }
}

#[unsafe(no_mangle)]
pub unsafe extern "C" fn skaldrift_cut(
    state: *mut u64,
    state_len: usize,
    image: *mut u8,
    image_len: usize,
    log: *const u8,
    log_len: usize,
    rows: *const u8,
    rows_len: usize,
    report: *mut u64,
) -> u64 {
    unsafe {
        Quick.cut(
            lent_mut(state, state_len),
            lent_mut(image, image_len),
            lent(log, log_len),
            lent(rows, rows_len),
            &mut *report,
        )
    }
}

#[unsafe(no_mangle)]
pub unsafe extern "C" fn skaldrift_gate(
    state: *mut u64,
    state_len: usize,
    image: *const u8,
    image_len: usize,
    log: *mut u8,
    log_len: usize,
    sheet: *const u8,
    sheet_len: usize,
    work: *mut u8,
    work_len: usize,
    addr: u64,
    data: *const u8,
    data_len: usize,
    report: *mut u64,
) -> u64 {
    unsafe {
        Quick.gate(
            lent_mut(state, state_len),
            lent(image, image_len),
            lent_mut(log, log_len),
            lent(sheet, sheet_len),
            lent_mut(work, work_len),
            addr,
            lent(data, data_len),
            &mut *report,
        )
    }
}

#[unsafe(no_mangle)]
pub unsafe extern "C" fn skaldrift_tape_write(
    state: *mut u64,
    state_len: usize,
    image: *const u8,
    image_len: usize,
    log: *mut u8,
    log_len: usize,
    tape: *const u8,
    tape_len: usize,
    start: u64,
    predicted: *mut u8,
    predicted_len: usize,
    addr: u64,
    data: *const u8,
    data_len: usize,
) -> u64 {
    unsafe {
        Quick.tape_write(
            lent_mut(state, state_len),
            lent(image, image_len),
            lent_mut(log, log_len),
            lent(tape, tape_len),
            start,
            lent_mut(predicted, predicted_len),
            addr,
            lent(data, data_len),
        )
    }
}

#[unsafe(no_mangle)]
pub unsafe extern "C" fn skaldrift_tape_flush(
    state: *mut u64,
    state_len: usize,
    image: *mut u8,
    image_len: usize,
    log: *const u8,
    log_len: usize,
    tape: *const u8,
    tape_len: usize,
    start: *mut u64,
    predicted: *mut u8,
    predicted_len: usize,
) -> u64 {
    unsafe {
        Quick.tape_flush(
            lent_mut(state, state_len),
            lent_mut(image, image_len),
            lent(log, log_len),
            lent(tape, tape_len),
            &mut *start,
            lent_mut(predicted, predicted_len),
        )
    }
}

#[unsafe(no_mangle)]
pub unsafe extern "C" fn skaldrift_tape_cut(
    state: *mut u64,
    state_len: usize,
    image: *mut u8,
    image_len: usize,
    log: *const u8,
    log_len: usize,
    tape: *const u8,
    tape_len: usize,
    start: *mut u64,
    predicted: *mut u8,
    predicted_len: usize,
    report: *mut u64,
) -> u64 {
    unsafe {
        Quick.tape_cut(
            lent_mut(state, state_len),
            lent_mut(image, image_len),
            lent(log, log_len),
            lent(tape, tape_len),
            &mut *start,
            lent_mut(predicted, predicted_len),
            &mut *report,
        )
    }
}

#[unsafe(no_mangle)]
pub unsafe extern "C" fn skaldrift_setup(
    image: *mut u8,
    image_len: usize,
    addr: u64,
    val0: u8,
) -> u64 {
    unsafe { Quick.setup(lent_mut(image, image_len), addr, val0) }
}

#[unsafe(no_mangle)]
pub unsafe extern "C" fn skaldrift_run(
    image: *mut u8,
    image_len: usize,
    log: *mut u8,
    log_len: usize,
    work: *mut u8,
    work_len: usize,
    addr: u64,
    val0: u8,
    val1: u8,
    rounds: u64,
) -> u64 {
    unsafe {
        Quick.run(
            lent_mut(image, image_len),
            lent_mut(log, log_len),
            lent_mut(work, work_len),
            addr,
            val0,
            val1,
            rounds,
        )
    }
}
