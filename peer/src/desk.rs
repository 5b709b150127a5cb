//! A desk: anything that answers the twelve calls. The oracle is one, the linked
//! library another, and the tests have some that are wrong on purpose.

use crate::{Answer, example, gate, region, tape};

/// The calls with the C functions' arguments. `report` is left alone where
/// document 01 reports nothing.
#[allow(clippy::too_many_arguments)]
pub trait Desk {
    fn open(&self, state: &mut [u64], image: &[u8], log: &[u8], sheet: &[u8]) -> u64;

    fn write(&self, state: &mut [u64], image: &[u8], log: &mut [u8], addr: u64, data: &[u8])
    -> u64;

    fn read(
        &self,
        state: &[u64],
        image: &[u8],
        log: &[u8],
        work: &mut [u8],
        addr: u64,
        len: u64,
    ) -> u64;

    fn flush(&self, state: &mut [u64], image: &mut [u8], log: &[u8]) -> u64;

    fn judge(
        &self,
        state: &[u64],
        image: &[u8],
        log: &[u8],
        sheet: &[u8],
        work: &mut [u8],
        addr: u64,
        data: &[u8],
        report: &mut u64,
    ) -> u64;

    fn cut(
        &self,
        state: &mut [u64],
        image: &mut [u8],
        log: &[u8],
        rows: &[u8],
        report: &mut u64,
    ) -> u64;

    fn gate(
        &self,
        state: &mut [u64],
        image: &[u8],
        log: &mut [u8],
        sheet: &[u8],
        work: &mut [u8],
        addr: u64,
        data: &[u8],
        report: &mut u64,
    ) -> u64;

    fn tape_write(
        &self,
        state: &mut [u64],
        image: &[u8],
        log: &mut [u8],
        tape: &[u8],
        start: u64,
        predicted: &mut [u8],
        addr: u64,
        data: &[u8],
    ) -> u64;

    fn tape_flush(
        &self,
        state: &mut [u64],
        image: &mut [u8],
        log: &[u8],
        tape: &[u8],
        start: &mut u64,
        predicted: &mut [u8],
    ) -> u64;

    fn tape_cut(
        &self,
        state: &mut [u64],
        image: &mut [u8],
        log: &[u8],
        tape: &[u8],
        start: &mut u64,
        predicted: &mut [u8],
        report: &mut u64,
    ) -> u64;

    fn setup(&self, image: &mut [u8], addr: u64, val0: u8) -> u64;

    fn run(
        &self,
        image: &mut [u8],
        log: &mut [u8],
        work: &mut [u8],
        addr: u64,
        val0: u8,
        val1: u8,
        rounds: u64,
    ) -> u64;
}

/// The desk that is right by definition.
pub struct Oracle;

fn handed_over(answer: Answer, report: &mut u64) -> u64 {
    if let Some(value) = answer.report {
        *report = value;
    }
    answer.number
}

fn reporting_nothing(answer: Answer) -> u64 {
    assert_eq!(answer.report, None, "this call has nowhere to report to");
    answer.number
}

impl Desk for Oracle {
    fn open(&self, state: &mut [u64], image: &[u8], log: &[u8], sheet: &[u8]) -> u64 {
        reporting_nothing(gate::open(state, image, log, sheet))
    }

    fn write(
        &self,
        state: &mut [u64],
        image: &[u8],
        log: &mut [u8],
        addr: u64,
        data: &[u8],
    ) -> u64 {
        reporting_nothing(region::write(state, image, log, addr, data))
    }

    fn read(
        &self,
        state: &[u64],
        image: &[u8],
        log: &[u8],
        work: &mut [u8],
        addr: u64,
        len: u64,
    ) -> u64 {
        reporting_nothing(region::read(state, image, log, work, addr, len))
    }

    fn flush(&self, state: &mut [u64], image: &mut [u8], log: &[u8]) -> u64 {
        reporting_nothing(region::flush(state, image, log))
    }

    fn judge(
        &self,
        state: &[u64],
        image: &[u8],
        log: &[u8],
        sheet: &[u8],
        work: &mut [u8],
        addr: u64,
        data: &[u8],
        report: &mut u64,
    ) -> u64 {
        handed_over(gate::judge(state, image, log, sheet, work, addr, data), report)
    }

    fn cut(
        &self,
        state: &mut [u64],
        image: &mut [u8],
        log: &[u8],
        rows: &[u8],
        report: &mut u64,
    ) -> u64 {
        handed_over(region::cut(state, image, log, rows), report)
    }

    fn gate(
        &self,
        state: &mut [u64],
        image: &[u8],
        log: &mut [u8],
        sheet: &[u8],
        work: &mut [u8],
        addr: u64,
        data: &[u8],
        report: &mut u64,
    ) -> u64 {
        handed_over(gate::gate(state, image, log, sheet, work, addr, data), report)
    }

    fn tape_write(
        &self,
        state: &mut [u64],
        image: &[u8],
        log: &mut [u8],
        tape: &[u8],
        start: u64,
        predicted: &mut [u8],
        addr: u64,
        data: &[u8],
    ) -> u64 {
        let answer = tape::tape_write(state, image, log, tape, start, predicted, addr, data);
        reporting_nothing(answer)
    }

    fn tape_flush(
        &self,
        state: &mut [u64],
        image: &mut [u8],
        log: &[u8],
        tape: &[u8],
        start: &mut u64,
        predicted: &mut [u8],
    ) -> u64 {
        reporting_nothing(tape::tape_flush(state, image, log, tape, start, predicted))
    }

    fn tape_cut(
        &self,
        state: &mut [u64],
        image: &mut [u8],
        log: &[u8],
        tape: &[u8],
        start: &mut u64,
        predicted: &mut [u8],
        report: &mut u64,
    ) -> u64 {
        handed_over(tape::tape_cut(state, image, log, tape, start, predicted), report)
    }

    fn setup(&self, image: &mut [u8], addr: u64, val0: u8) -> u64 {
        reporting_nothing(example::setup(image, addr, val0))
    }

    fn run(
        &self,
        image: &mut [u8],
        log: &mut [u8],
        work: &mut [u8],
        addr: u64,
        val0: u8,
        val1: u8,
        rounds: u64,
    ) -> u64 {
        reporting_nothing(example::run(image, log, work, addr, val0, val1, rounds))
    }
}
