//! Opening, the judging call and the gate.

use crate::log::{self, Write};
use crate::number::*;
use crate::region::{no_room, record, with_write};
use crate::sheet::{Rule, read_sheet};
use crate::{Answer, LOG_BYTES, LONGEST_IMAGE, MOST_POINTS, STATE_WORDS};

/// Judges the image and starts an empty log. What the state held before is never
/// looked at, since after a power loss it may hold anything.
pub fn open(state: &mut [u64], image: &[u8], log: &[u8], sheet: &[u8]) -> Answer {
    if state.len() != STATE_WORDS || image.len() > LONGEST_IMAGE || log.len() != LOG_BYTES {
        return Answer::refused(MISSHAPEN);
    }
    let Some(rule) = read_sheet(sheet) else {
        return Answer::refused(BAD_SHEET);
    };
    if !rule.holds(image) {
        return Answer::refused(IMAGE_BREAKS_SHEET);
    }
    state.fill(0);
    Answer::done()
}

enum Verdict {
    Admitted { points: u64, read_image: Vec<u8> },
    Denied { choice: u64, bad_image: Vec<u8> },
    TooManyPoints,
}

/// Tries every choice over a log that already holds the new write.
fn try_all(image: &[u8], writes: &[Write], rule: &Rule) -> Verdict {
    let points = log::points(writes);
    if points.len() > MOST_POINTS {
        return Verdict::TooManyPoints;
    }
    for choice in 0..1u64 << points.len() {
        let left = log::replay(image, writes, &log::kept_by_choice(&points, choice));
        if !rule.holds(&left) {
            return Verdict::Denied { choice, bad_image: left };
        }
    }
    Verdict::Admitted { points: points.len() as u64, read_image: log::read_image(image, writes) }
}

/// The gate's answer and working image, nothing recorded. The log before the new
/// write comes along when the write is admitted.
fn judged(
    state: &[u64],
    image: &[u8],
    log: &[u8],
    sheet: &[u8],
    work: &mut [u8],
    addr: u64,
    data: &[u8],
) -> (Answer, Vec<Write>) {
    let refused = |number| (Answer::refused(number), Vec::new());
    let Some(writes) = log::outstanding(state, image, log) else {
        return refused(MISSHAPEN);
    };
    if work.len() != image.len() {
        return refused(MISSHAPEN);
    }
    let Some(rule) = read_sheet(sheet) else {
        return refused(BAD_SHEET);
    };
    if let Some(number) = no_room(image, &writes, addr, data) {
        return refused(number);
    }
    match try_all(image, &with_write(&writes, addr, data), &rule) {
        Verdict::TooManyPoints => refused(TOO_MANY_POINTS),
        Verdict::Denied { choice, bad_image } => {
            work.copy_from_slice(&bad_image);
            (Answer::denied(choice), Vec::new())
        }
        Verdict::Admitted { points, read_image } => {
            work.copy_from_slice(&read_image);
            (Answer::done_reporting(points), writes)
        }
    }
}

pub fn judge(
    state: &[u64],
    image: &[u8],
    log: &[u8],
    sheet: &[u8],
    work: &mut [u8],
    addr: u64,
    data: &[u8],
) -> Answer {
    judged(state, image, log, sheet, work, addr, data).0
}

pub fn gate(
    state: &mut [u64],
    image: &[u8],
    log: &mut [u8],
    sheet: &[u8],
    work: &mut [u8],
    addr: u64,
    data: &[u8],
) -> Answer {
    let (answer, writes) = judged(state, image, log, sheet, work, addr, data);
    if answer.number == DONE {
        record(state, log, &writes, addr, data);
    }
    answer
}
