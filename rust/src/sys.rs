//! The functions of the archive, as `include/skaldrift.h` declares them. A slice is a pointer and a
//! length; nothing checks these declarations against the proved source, so they stand in one place.
//!
//! # Safety
//!
//! Each pointer leads to as many elements as the length after it says, `report` and `start` to one
//! number, and no buffer that a call may change overlaps another buffer of the same call. A null
//! pointer is fine where the length is 0. Nothing else is asked: on any contents and any lengths a
//! call ends, stays inside this memory and answers a number.

extern "C" {
    pub fn skaldrift_state_words() -> u64;

    pub fn skaldrift_open(
        state: *mut u64,
        state_words: usize,
        image: *const u8,
        image_len: usize,
        log: *const u8,
        log_len: usize,
        sheet: *const u8,
        sheet_len: usize,
    ) -> u64;

    pub fn skaldrift_write(
        state: *mut u64,
        state_words: usize,
        image: *const u8,
        image_len: usize,
        log: *mut u8,
        log_len: usize,
        addr: u64,
        data: *const u8,
        data_len: usize,
    ) -> u64;

    pub fn skaldrift_read(
        state: *const u64,
        state_words: usize,
        image: *const u8,
        image_len: usize,
        log: *const u8,
        log_len: usize,
        work: *mut u8,
        work_len: usize,
        addr: u64,
        len: u64,
    ) -> u64;

    pub fn skaldrift_flush(
        state: *mut u64,
        state_words: usize,
        image: *mut u8,
        image_len: usize,
        log: *const u8,
        log_len: usize,
    ) -> u64;

    pub fn skaldrift_cut(
        state: *mut u64,
        state_words: usize,
        image: *mut u8,
        image_len: usize,
        log: *const u8,
        log_len: usize,
        rows: *const u8,
        rows_len: usize,
        report: *mut u64,
    ) -> u64;

    pub fn skaldrift_judge(
        state: *const u64,
        state_words: usize,
        image: *const u8,
        image_len: usize,
        log: *const u8,
        log_len: usize,
        sheet: *const u8,
        sheet_len: usize,
        work: *mut u8,
        work_len: usize,
        addr: u64,
        data: *const u8,
        data_len: usize,
        report: *mut u64,
    ) -> u64;

    pub fn skaldrift_gate(
        state: *mut u64,
        state_words: usize,
        image: *const u8,
        image_len: usize,
        log: *mut u8,
        log_len: usize,
        sheet: *const u8,
        sheet_len: usize,
        work: *mut u8,
        work_len: usize,
        addr: u64,
        data: *const u8,
        data_len: usize,
        report: *mut u64,
    ) -> u64;

    pub fn skaldrift_tape_write(
        state: *mut u64,
        state_words: usize,
        image: *const u8,
        image_len: usize,
        log: *mut u8,
        log_len: usize,
        tape: *const u8,
        tape_len: usize,
        start: u64,
        predicted: *mut u8,
        predicted_len: usize,
        addr: u64,
        data: *const u8,
        data_len: usize,
    ) -> u64;

    pub fn skaldrift_tape_flush(
        state: *mut u64,
        state_words: usize,
        image: *mut u8,
        image_len: usize,
        log: *const u8,
        log_len: usize,
        tape: *const u8,
        tape_len: usize,
        start: *mut u64,
        predicted: *mut u8,
        predicted_len: usize,
    ) -> u64;

    pub fn skaldrift_tape_cut(
        state: *mut u64,
        state_words: usize,
        image: *mut u8,
        image_len: usize,
        log: *const u8,
        log_len: usize,
        tape: *const u8,
        tape_len: usize,
        start: *mut u64,
        predicted: *mut u8,
        predicted_len: usize,
        report: *mut u64,
    ) -> u64;

    pub fn skaldrift_setup(image: *mut u8, image_len: usize, addr: u64, val0: u8) -> u64;

    pub fn skaldrift_run(
        image: *mut u8,
        image_len: usize,
        log: *mut u8,
        log_len: usize,
        work: *mut u8,
        work_len: usize,
        addr: u64,
        val0: u8,
        val1: u8,
        rounds: u64,
    ) -> u64;
}
