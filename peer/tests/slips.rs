//! Wrong desks, each with one slip, that the comparison has to find. The first six are
//! document 01's slips of a tired programmer; the others are breaches of a single
//! sentence of it.

use peer::campaign::{Plan, campaign};
use peer::desk::Desk;
use peer::exhaustive::Extent;
use peer::log::{self, Write};
use peer::quick::Quick;
use peer::referee::Referee;
use peer::sheet::read_sheet;

#[derive(Clone, Copy, Debug, PartialEq)]
enum Slip {
    OneBitPerChunkForAllWrites,
    OneBitPerWrite,
    NewestFirst,
    ChunksCountedByLength,
    OnlyTheAllKeptImageJudged,
    EmptyWriteDropped,
    KeptCountsUntouchedChunks,
    FillingIgnored,
    ReportOnRefusal,
    NumberNineBeforeTen,
    StartMovedOnRefusal,
    StartKeptOnEmptyLog,
    RowsUnder80Unchecked,
    PredictedFromTheBuffer,
    OpeningLooksAtTheState,
    OpeningKeepsRecords,
    FlushClearsRecords,
    TapeFlushClearsPredicted,
    SumWraps,
    NumberFourBeforeThree,
    TooManyPointsFillsWork,
    DenialKeepsWork,
    GateOnlyJudges,
    DenialNamesAnotherChoice,
    EmptyGroupAtTheEighthLevelRefused,
    ZeroByteAfterTheSheet,
    LowAboveHighSwapped,
    RunJudgesBeforeCounting,
    RunKeepsItsLog,
    SetupFillsThePlaceBefore,
    WorkingImageMayBeLonger,
    StateMayBeLonger,
}

use Slip::*;

const ALL: [Slip; 32] = [
    OneBitPerChunkForAllWrites,
    OneBitPerWrite,
    NewestFirst,
    ChunksCountedByLength,
    OnlyTheAllKeptImageJudged,
    EmptyWriteDropped,
    KeptCountsUntouchedChunks,
    FillingIgnored,
    ReportOnRefusal,
    NumberNineBeforeTen,
    StartMovedOnRefusal,
    StartKeptOnEmptyLog,
    RowsUnder80Unchecked,
    PredictedFromTheBuffer,
    OpeningLooksAtTheState,
    OpeningKeepsRecords,
    FlushClearsRecords,
    TapeFlushClearsPredicted,
    SumWraps,
    NumberFourBeforeThree,
    TooManyPointsFillsWork,
    DenialKeepsWork,
    GateOnlyJudges,
    DenialNamesAnotherChoice,
    EmptyGroupAtTheEighthLevelRefused,
    ZeroByteAfterTheSheet,
    LowAboveHighSwapped,
    RunJudgesBeforeCounting,
    RunKeepsItsLog,
    SetupFillsThePlaceBefore,
    WorkingImageMayBeLonger,
    StateMayBeLonger,
];

#[test]
fn every_slip_is_found() {
    for slip in ALL {
        let desk = Slipping(slip);
        let mut referee = Referee::new(vec![&desk]);
        let plan = Plan { seed: 3, calls: 60_000, only: None, extent: Extent::SAMPLE };
        match campaign(&mut referee, &plan, |_, _| {}) {
            Ok(()) => panic!("{slip:?} was not found in {} calls", referee.calls),
            Err(difference) => println!("{slip:?} after {}: {}", referee.calls, difference.what),
        }
    }
}

struct Slipping(Slip);

fn state_of(writes: &[Write]) -> Vec<u64> {
    let mut state = vec![writes.len() as u64];
    for write in writes {
        state.extend([write.addr as u64, write.data.len() as u64]);
    }
    state.resize(65, 0);
    state
}

fn log_of(writes: &[Write]) -> Vec<u8> {
    let mut log: Vec<u8> = writes.iter().flat_map(|write| write.data.clone()).collect();
    log.resize(1024, 0);
    log
}

impl Slipping {
    fn is(&self, slip: Slip) -> bool {
        self.0 == slip
    }

    /// Rows as the slip would see them; a table of the wrong length stays as it is.
    fn seen_rows(&self, state: &[u64], image: &[u8], log: &[u8], rows: &[u8]) -> Vec<u8> {
        let mut seen = rows.to_vec();
        let Some(writes) = log::outstanding(state, image, log) else {
            return seen;
        };
        let bytes = log::row_bytes(image.len());
        if bytes == 0 || rows.len() != bytes * writes.len() {
            return seen;
        }
        let filling = match log::chunk_count(image.len()) % 8 {
            0 => 0x00,
            used => 0xFFu8 >> used,
        };
        for (row, write) in seen.chunks_mut(bytes).zip(&writes) {
            match self.0 {
                OneBitPerChunkForAllWrites => row.copy_from_slice(&rows[..bytes]),
                OneBitPerWrite => {
                    let last = row[bytes - 1] & filling;
                    let first = write.touched().first().copied().unwrap_or(0);
                    let kept = row[first / 8] & (0x80 >> (first % 8)) != 0;
                    row.fill(if kept { 0xFF } else { 0x00 });
                    row[bytes - 1] = row[bytes - 1] & !filling | last;
                }
                FillingIgnored => row[bytes - 1] &= !filling,
                _ => {}
            }
        }
        seen
    }

    fn seen_sheet(&self, sheet: &[u8]) -> Vec<u8> {
        let mut seen = sheet.to_vec();
        match self.0 {
            ZeroByteAfterTheSheet if sheet.last() == Some(&0) => {
                let shorter = &sheet[..sheet.len() - 1];
                if read_sheet(shorter).is_some() {
                    seen.pop();
                }
            }
            EmptyGroupAtTheEighthLevelRefused
                if read_sheet(sheet).is_some_and(|rule| rule.depth() == 8) =>
            {
                seen.clear();
            }
            LowAboveHighSwapped => {
                if let Some(rule) = read_sheet(sheet) {
                    seen = peer::sheet::write_sheet(&swapped(rule));
                }
            }
            _ => {}
        }
        seen
    }

    /// What the slip makes of a verdict that the quick desk has just given.
    #[allow(clippy::too_many_arguments)]
    fn bend(
        &self,
        writes: Option<Vec<Write>>,
        image: &[u8],
        work_before: &[u8],
        work: &mut [u8],
        addr: u64,
        data: &[u8],
        report: &mut u64,
        number: u64,
    ) -> u64 {
        match self.0 {
            ChunksCountedByLength if number == 0 => {
                let blocks = |len: usize| len.div_ceil(8) as u64;
                let old = writes.unwrap_or_default();
                *report = old.iter().map(|write| blocks(write.data.len())).sum::<u64>()
                    + blocks(data.len());
            }
            OnlyTheAllKeptImageJudged if number == 8 => {
                let mut all = writes.unwrap_or_default();
                all.push(Write { addr: addr as usize, data: data.to_vec() });
                let points = log::points(&all).len() as u64;
                let last = (1 << points) - 1;
                if *report != last {
                    *report = points;
                    work.copy_from_slice(&log::read_image(image, &all));
                    return 0;
                }
            }
            TooManyPointsFillsWork if number == 7 => work.copy_from_slice(image),
            DenialKeepsWork if number == 8 => work.copy_from_slice(work_before),
            DenialNamesAnotherChoice if number == 8 && *report > 2 => *report -= 1,
            _ => {}
        }
        number
    }
}

fn swapped(rule: peer::sheet::Rule) -> peer::sheet::Rule {
    use peer::sheet::Rule;
    match rule {
        Rule::Range { addr, low, high } => {
            Rule::Range { addr, low: low.min(high), high: low.max(high) }
        }
        Rule::All(members) => Rule::All(members.into_iter().map(swapped).collect()),
        Rule::Any(members) => Rule::Any(members.into_iter().map(swapped).collect()),
        same => same,
    }
}

impl Desk for Slipping {
    fn open(&self, state: &mut [u64], image: &[u8], log: &[u8], sheet: &[u8]) -> u64 {
        if self.is(OpeningLooksAtTheState) && log::outstanding(state, image, log).is_none() {
            return 1;
        }
        if self.is(StateMayBeLonger) && state.len() > 65 {
            return Quick.open(&mut state[..65], image, log, sheet);
        }
        let before = state.to_vec();
        let number = Quick.open(state, image, log, &self.seen_sheet(sheet));
        if self.is(OpeningKeepsRecords) && number == 0 {
            state[1..].copy_from_slice(&before[1..]);
        }
        number
    }

    fn write(
        &self,
        state: &mut [u64],
        image: &[u8],
        log: &mut [u8],
        addr: u64,
        data: &[u8],
    ) -> u64 {
        let (state_before, log_before) = (state.to_vec(), log.to_vec());
        let number = Quick.write(state, image, log, addr, data);
        let end = addr.wrapping_add(data.len() as u64);
        if self.is(EmptyWriteDropped) && number == 0 && data.is_empty() {
            state.copy_from_slice(&state_before);
            log.copy_from_slice(&log_before);
        }
        if self.is(SumWraps) && number == 2 && end <= image.len() as u64 {
            return 0;
        }
        if self.is(NumberFourBeforeThree) && number == 3 {
            let writes = log::outstanding(state, image, log).expect("3 comes after 1");
            if log::data_bytes(&writes) + data.len() > 1024 {
                return 4;
            }
        }
        number
    }

    fn read(
        &self,
        state: &[u64],
        image: &[u8],
        log: &[u8],
        work: &mut [u8],
        addr: u64,
        len: u64,
    ) -> u64 {
        let length = image.len();
        if self.is(WorkingImageMayBeLonger) && work.len() > length {
            return Quick.read(state, image, log, &mut work[..length], addr, len);
        }
        Quick.read(state, image, log, work, addr, len)
    }

    fn flush(&self, state: &mut [u64], image: &mut [u8], log: &[u8]) -> u64 {
        if self.is(NewestFirst)
            && let Some(mut writes) = log::outstanding(state, image, log)
        {
            writes.reverse();
            let number = Quick.flush(&mut state_of(&writes), image, &log_of(&writes));
            state[0] = 0;
            return number;
        }
        let number = Quick.flush(state, image, log);
        if self.is(FlushClearsRecords) && number == 0 {
            state.fill(0);
        }
        number
    }

    fn judge(
        &self,
        state: &[u64],
        image: &[u8],
        log: &[u8],
        sheet: &[u8],
        work: &mut [u8],
        addr: u64,
        data: &[u8],
        report: &mut u64,
    ) -> u64 {
        let before = work.to_vec();
        let seen = self.seen_sheet(sheet);
        let number = Quick.judge(state, image, log, &seen, work, addr, data, report);
        let writes = log::outstanding(state, image, log);
        self.bend(writes, image, &before, work, addr, data, report, number)
    }

    fn cut(
        &self,
        state: &mut [u64],
        image: &mut [u8],
        log: &[u8],
        rows: &[u8],
        report: &mut u64,
    ) -> u64 {
        let seen = self.seen_rows(state, image, log, rows);
        let number = Quick.cut(state, image, log, &seen, report);
        if self.is(KeptCountsUntouchedChunks) && number == 0 {
            *report = rows.iter().map(|byte| u64::from(byte.count_ones())).sum();
        }
        if self.is(ReportOnRefusal) && number == 9 {
            *report = 0;
        }
        number
    }

    fn gate(
        &self,
        state: &mut [u64],
        image: &[u8],
        log: &mut [u8],
        sheet: &[u8],
        work: &mut [u8],
        addr: u64,
        data: &[u8],
        report: &mut u64,
    ) -> u64 {
        if self.is(GateOnlyJudges) {
            return Quick.judge(state, image, log, sheet, work, addr, data, report);
        }
        let before = work.to_vec();
        let writes = log::outstanding(state, image, log);
        let seen = self.seen_sheet(sheet);
        let number = Quick.gate(state, image, log, &seen, work, addr, data, report);
        self.bend(writes, image, &before, work, addr, data, report, number)
    }

    fn tape_write(
        &self,
        state: &mut [u64],
        image: &[u8],
        log: &mut [u8],
        tape: &[u8],
        start: u64,
        predicted: &mut [u8],
        addr: u64,
        data: &[u8],
    ) -> u64 {
        let before = predicted.to_vec();
        let writes = log::outstanding(state, image, log);
        let number = Quick.tape_write(state, image, log, tape, start, predicted, addr, data);
        let bytes = log::row_bytes(image.len());
        let first_row = (start as usize).saturating_add(1);
        match self.0 {
            PredictedFromTheBuffer if number == 0 => {
                let count = writes.map_or(0, |writes| writes.len());
                let new = [Write { addr: addr as usize, data: data.to_vec() }];
                let at = first_row + count * bytes;
                let row = log::rows(&tape[at..at + bytes], 1, image.len()).expect("a good row");
                let kept = match tape[start as usize] {
                    0x80 => log::points(&new).into_iter().collect(),
                    _ => log::kept_by_rows(&new, &row),
                };
                predicted.copy_from_slice(&log::replay(&before, &new, &kept));
            }
            NumberNineBeforeTen if number == 10 => {
                let header = usize::try_from(start).ok().and_then(|start| tape.get(start));
                let there = tape.get(first_row.min(tape.len())..).unwrap_or(&[]);
                if bytes > 0 && matches!(header, Some(0x00 | 0x80)) {
                    let whole = there.len() / bytes;
                    let table = &there[..whole * bytes];
                    if log::rows(table, whole, image.len()).is_none() {
                        return 9;
                    }
                }
            }
            _ => {}
        }
        number
    }

    fn tape_flush(
        &self,
        state: &mut [u64],
        image: &mut [u8],
        log: &[u8],
        tape: &[u8],
        start: &mut u64,
        predicted: &mut [u8],
    ) -> u64 {
        let (before, empty) = (*start, state.first() == Some(&0));
        let mut cleaned = tape.to_vec();
        let at = usize::try_from(before).unwrap_or(usize::MAX);
        if self.is(RowsUnder80Unchecked) && tape.get(at) == Some(&0x80) {
            cleaned[at + 1..].fill(0);
        }
        let number = Quick.tape_flush(state, image, log, &cleaned, start, predicted);
        if self.is(StartKeptOnEmptyLog) && empty {
            *start = before;
        }
        if self.is(StartMovedOnRefusal) && number == 11 {
            *start += 1;
        }
        if self.is(TapeFlushClearsPredicted) && number == 0 {
            predicted.fill(0);
        }
        number
    }

    fn tape_cut(
        &self,
        state: &mut [u64],
        image: &mut [u8],
        log: &[u8],
        tape: &[u8],
        start: &mut u64,
        predicted: &mut [u8],
        report: &mut u64,
    ) -> u64 {
        Quick.tape_cut(state, image, log, tape, start, predicted, report)
    }

    fn setup(&self, image: &mut [u8], addr: u64, val0: u8) -> u64 {
        if self.is(SetupFillsThePlaceBefore) && addr > 0 {
            return Quick.setup(image, addr - 1, val0);
        }
        Quick.setup(image, addr, val0)
    }

    fn run(
        &self,
        image: &mut [u8],
        log: &mut [u8],
        work: &mut [u8],
        addr: u64,
        val0: u8,
        val1: u8,
        rounds: u64,
    ) -> u64 {
        let before = log.to_vec();
        let number = Quick.run(image, log, work, addr, val0, val1, rounds);
        if self.is(RunJudgesBeforeCounting) && number == 12 {
            let byte = image[addr as usize];
            return if byte == val0 || byte == val1 { 12 } else { 6 };
        }
        if self.is(RunKeepsItsLog) {
            log.copy_from_slice(&before);
        }
        number
    }
}
