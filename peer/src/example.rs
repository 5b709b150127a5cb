//! The example application: a byte that is always one of two values.

use crate::gate::{gate, open};
use crate::log::within;
use crate::number::*;
use crate::region::flush;
use crate::sheet::{Rule, write_sheet};
use crate::{Answer, LOG_BYTES, LONGEST_IMAGE, MOST_ROUNDS, STATE_WORDS};

pub fn setup(image: &mut [u8], addr: u64, val0: u8) -> Answer {
    if image.len() > LONGEST_IMAGE {
        return Answer::refused(MISSHAPEN);
    }
    if !within(addr, 1, image.len()) {
        return Answer::refused(OUTSIDE);
    }
    image[addr as usize] = val0;
    Answer::done()
}

/// The sheet of the example. `addr` lies in an image, so it has 16 bits.
fn example_sheet(addr: u64, val0: u8, val1: u8) -> Vec<u8> {
    let is = |value| Rule::Range { addr: addr as u16, low: value, high: value };
    write_sheet(&Rule::Any(vec![is(val0), is(val1)]))
}

pub fn run(
    image: &mut [u8],
    log: &mut [u8],
    work: &mut [u8],
    addr: u64,
    val0: u8,
    val1: u8,
    rounds: u64,
) -> Answer {
    if image.len() > LONGEST_IMAGE || log.len() != LOG_BYTES || work.len() != image.len() {
        return Answer::refused(MISSHAPEN);
    }
    if !within(addr, 1, image.len()) {
        return Answer::refused(OUTSIDE);
    }
    if rounds > MOST_ROUNDS {
        return Answer::refused(TOO_MANY_ROUNDS);
    }
    let sheet = example_sheet(addr, val0, val1);
    let mut state = [0; STATE_WORDS];
    let opened = open(&mut state, image, log, &sheet);
    if opened.number != DONE {
        return opened;
    }
    for _ in 0..rounds {
        for values in [[val0, val1], [val1, val0]] {
            for value in values {
                let verdict = gate(&mut state, image, log, &sheet, work, addr, &[value]);
                if verdict.number != DONE {
                    return Answer::refused(verdict.number);
                }
            }
            let flushed = flush(&mut state, image, log);
            if flushed.number != DONE {
                return flushed;
            }
        }
    }
    Answer::done()
}
