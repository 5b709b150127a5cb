//! Writes, flushes and cuts by a tape of choices that was fixed beforehand.

use crate::Answer;
use crate::log::{self, Row, Write};
use crate::number::*;
use crate::region::{no_room, record, with_write};

const FLUSH_ENDS_IT: u8 = 0x80;
const CUT_ENDS_IT: u8 = 0x00;

/// The part of the tape that speaks about the epoch so far.
struct Epoch {
    header: u8,
    rows: Vec<Row>,
    /// The start of the next epoch, if this one ends here.
    next_start: u64,
}

/// Reads the header at `start` and `count` rows, or gives 10 or 9. All of 10 is
/// settled before any of 9.
fn epoch(tape: &[u8], start: u64, count: usize, length: usize) -> Result<Epoch, u64> {
    let past_start = usize::try_from(start).ok().and_then(|start| tape.get(start..));
    let Some((&header, after)) = past_start.and_then(<[u8]>::split_first) else {
        return Err(BAD_TAPE);
    };
    if header != FLUSH_ENDS_IT && header != CUT_ENDS_IT {
        return Err(BAD_TAPE);
    }
    let Some(table) = after.get(..count * log::row_bytes(length)) else {
        return Err(BAD_TAPE);
    };
    let Some(rows) = log::rows(table, count, length) else {
        return Err(BAD_ROWS);
    };
    Ok(Epoch { header, rows, next_start: start + 1 + table.len() as u64 })
}

impl Epoch {
    fn predicted(&self, image: &[u8], writes: &[Write]) -> Vec<u8> {
        if self.header == FLUSH_ENDS_IT {
            log::read_image(image, writes)
        } else {
            log::replay(image, writes, &log::kept_by_rows(writes, &self.rows))
        }
    }
}

/// A plain write that also brings the predicted image up to date.
#[allow(clippy::too_many_arguments)]
pub fn tape_write(
    state: &mut [u64],
    image: &[u8],
    log: &mut [u8],
    tape: &[u8],
    start: u64,
    predicted: &mut [u8],
    addr: u64,
    data: &[u8],
) -> Answer {
    let Some(writes) = log::outstanding(state, image, log) else {
        return Answer::refused(MISSHAPEN);
    };
    if predicted.len() != image.len() {
        return Answer::refused(MISSHAPEN);
    }
    if let Some(number) = no_room(image, &writes, addr, data) {
        return Answer::refused(number);
    }
    let longer = with_write(&writes, addr, data);
    let epoch = match epoch(tape, start, longer.len(), image.len()) {
        Ok(epoch) => epoch,
        Err(number) => return Answer::refused(number),
    };
    predicted.copy_from_slice(&epoch.predicted(image, &longer));
    record(state, log, &writes, addr, data);
    Answer::done()
}

pub fn tape_flush(
    state: &mut [u64],
    image: &mut [u8],
    log: &[u8],
    tape: &[u8],
    start: &mut u64,
    predicted: &mut [u8],
) -> Answer {
    match end_epoch(state, image, log, tape, start, predicted, FLUSH_ENDS_IT) {
        Ok(_) => Answer::done(),
        Err(number) => Answer::refused(number),
    }
}

pub fn tape_cut(
    state: &mut [u64],
    image: &mut [u8],
    log: &[u8],
    tape: &[u8],
    start: &mut u64,
    predicted: &mut [u8],
) -> Answer {
    match end_epoch(state, image, log, tape, start, predicted, CUT_ENDS_IT) {
        Ok(kept) => Answer::done_reporting(kept),
        Err(number) => Answer::refused(number),
    }
}

/// Ends the epoch as `ending` says and gives the number of points its rows keep.
fn end_epoch(
    state: &mut [u64],
    image: &mut [u8],
    log: &[u8],
    tape: &[u8],
    start: &mut u64,
    predicted: &mut [u8],
    ending: u8,
) -> Result<u64, u64> {
    let Some(writes) = log::outstanding(state, image, log) else {
        return Err(MISSHAPEN);
    };
    if predicted.len() != image.len() {
        return Err(MISSHAPEN);
    }
    let epoch = epoch(tape, *start, writes.len(), image.len())?;
    if epoch.header != ending {
        return Err(OTHER_ENDING);
    }
    let left = epoch.predicted(image, &writes);
    image.copy_from_slice(&left);
    predicted.copy_from_slice(&left);
    state[0] = 0;
    *start = epoch.next_start;
    Ok(log::kept_by_rows(&writes, &epoch.rows).len() as u64)
}
