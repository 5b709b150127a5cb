//! The calls on a region alone: write, read, flush and cut.

use crate::log::{self, Write};
use crate::number::*;
use crate::{Answer, LOG_BYTES, MOST_WRITES};

/// Which of 2, 3 and 4 stands in the way of one more write, if any.
pub(crate) fn no_room(image: &[u8], writes: &[Write], addr: u64, data: &[u8]) -> Option<u64> {
    if !log::within(addr, data.len() as u64, image.len()) {
        Some(OUTSIDE)
    } else if writes.len() == MOST_WRITES {
        Some(TOO_MANY_WRITES)
    } else if log::data_bytes(writes) + data.len() > LOG_BYTES {
        Some(TOO_MANY_BYTES)
    } else {
        None
    }
}

/// The log with one more write, for which there is room.
pub(crate) fn with_write(writes: &[Write], addr: u64, data: &[u8]) -> Vec<Write> {
    let mut longer = writes.to_vec();
    longer.push(Write { addr: addr as usize, data: data.to_vec() });
    longer
}

/// Records a write behind `writes`, which the state and the log buffer hold.
pub(crate) fn record(state: &mut [u64], log: &mut [u8], writes: &[Write], addr: u64, data: &[u8]) {
    let at = log::data_bytes(writes);
    log[at..at + data.len()].copy_from_slice(data);
    state[1 + 2 * writes.len()] = addr;
    state[2 + 2 * writes.len()] = data.len() as u64;
    state[0] = writes.len() as u64 + 1;
}

/// A plain write, which judges nothing.
pub fn write(state: &mut [u64], image: &[u8], log: &mut [u8], addr: u64, data: &[u8]) -> Answer {
    let Some(writes) = log::outstanding(state, image, log) else {
        return Answer::refused(MISSHAPEN);
    };
    if let Some(number) = no_room(image, &writes, addr, data) {
        return Answer::refused(number);
    }
    record(state, log, &writes, addr, data);
    Answer::done()
}

/// Fills the working image with the read image.
pub fn read(
    state: &[u64],
    image: &[u8],
    log: &[u8],
    work: &mut [u8],
    addr: u64,
    len: u64,
) -> Answer {
    let Some(writes) = log::outstanding(state, image, log) else {
        return Answer::refused(MISSHAPEN);
    };
    if work.len() != image.len() {
        return Answer::refused(MISSHAPEN);
    }
    if !log::within(addr, len, image.len()) {
        return Answer::refused(OUTSIDE);
    }
    work.copy_from_slice(&log::read_image(image, &writes));
    Answer::done()
}

/// Makes the read image the image and empties the log.
pub fn flush(state: &mut [u64], image: &mut [u8], log: &[u8]) -> Answer {
    let Some(writes) = log::outstanding(state, image, log) else {
        return Answer::refused(MISSHAPEN);
    };
    let flushed = log::read_image(image, &writes);
    image.copy_from_slice(&flushed);
    state[0] = 0;
    Answer::done()
}

/// Makes the replay with the rows the image, empties the log and reports kept.
pub fn cut(state: &mut [u64], image: &mut [u8], log: &[u8], rows: &[u8]) -> Answer {
    let Some(writes) = log::outstanding(state, image, log) else {
        return Answer::refused(MISSHAPEN);
    };
    let Some(rows) = log::rows(rows, writes.len(), image.len()) else {
        return Answer::refused(BAD_ROWS);
    };
    let kept = log::kept_by_rows(&writes, &rows);
    let left = log::replay(image, &writes, &kept);
    image.copy_from_slice(&left);
    state[0] = 0;
    Answer::done_reporting(kept.len() as u64)
}
