//! The same calls as a Rust programmer would write them for daily use: no copies of
//! the log, one pass over it, and an arrangement of the choice points that makes each
//! image of the gate cheap. The benchmark holds the library against this, and the
//! tests hold this against the oracle.

use crate::desk::Desk;
use crate::number::*;
use crate::{
    CHUNK, DEEPEST, LOG_BYTES, LONGEST_IMAGE, LONGEST_SHEET, MOST_POINTS, MOST_ROUNDS, MOST_WRITES,
    STATE_WORDS,
};
use std::ops::Range;

type Done = Result<(), u64>;

/// A checked view of the outstanding writes.
#[derive(Clone, Copy)]
struct Log<'a> {
    records: &'a [[u64; 2]],
    data: &'a [u8],
    used: usize,
}

impl<'a> Log<'a> {
    fn check(state: &'a [u64], length: usize, data: &'a [u8]) -> Result<Log<'a>, u64> {
        if state.len() != STATE_WORDS || length > LONGEST_IMAGE || data.len() != LOG_BYTES {
            return Err(MISSHAPEN);
        }
        let (records, _) = state[1..].as_chunks::<2>();
        let count = usize::try_from(state[0]).map_err(|_| MISSHAPEN)?;
        let records = records.get(..count).ok_or(MISSHAPEN)?;
        let mut used = 0u64;
        for &[addr, len] in records {
            match addr.checked_add(len) {
                Some(end) if end <= length as u64 => used += len,
                _ => return Err(MISSHAPEN),
            }
        }
        if used > LOG_BYTES as u64 {
            return Err(MISSHAPEN);
        }
        Ok(Log { records, data, used: used as usize })
    }

    fn count(&self) -> usize {
        self.records.len()
    }

    /// Address and bytes of each write, oldest first.
    fn writes(self) -> impl Iterator<Item = (usize, &'a [u8])> {
        let mut rest = self.data;
        self.records.iter().map(move |&[addr, len]| {
            let (data, after) = rest.split_at(len as usize);
            rest = after;
            (addr as usize, data)
        })
    }

    fn room_for(&self, length: usize, addr: u64, len: usize) -> Done {
        inside(addr, len as u64, length)?;
        if self.count() == MOST_WRITES {
            return Err(TOO_MANY_WRITES);
        }
        if self.used + len > LOG_BYTES {
            return Err(TOO_MANY_BYTES);
        }
        Ok(())
    }

    /// Applies all writes to `target`, which holds the image.
    fn apply(self, target: &mut [u8]) {
        for (addr, data) in self.writes() {
            target[addr..addr + data.len()].copy_from_slice(data);
        }
    }
}

fn inside(addr: u64, len: u64, length: usize) -> Done {
    match addr.checked_add(len) {
        Some(end) if end <= length as u64 => Ok(()),
        _ => Err(OUTSIDE),
    }
}

fn same_length(other: &[u8], image: &[u8]) -> Done {
    if other.len() == image.len() { Ok(()) } else { Err(MISSHAPEN) }
}

fn append(state: &mut [u64], log: &mut [u8], used: usize, addr: u64, data: &[u8]) {
    let count = state[0] as usize;
    log[used..used + data.len()].copy_from_slice(data);
    state[1 + 2 * count] = addr;
    state[2 + 2 * count] = data.len() as u64;
    state[0] += 1;
}

fn chunks_of(addr: usize, len: usize) -> Range<usize> {
    if len == 0 { 0..0 } else { addr / CHUNK..(addr + len - 1) / CHUNK + 1 }
}

fn row_len(length: usize) -> usize {
    length.div_ceil(8 * CHUNK)
}

fn row_bit(row: &[u8], chunk: usize) -> bool {
    row[chunk / 8] & (0x80 >> (chunk % 8)) != 0
}

/// Checks the filling of every row of a table of the right length.
fn check_filling(table: &[u8], length: usize) -> Done {
    let used = length.div_ceil(CHUNK) % 8;
    if used == 0 {
        return Ok(());
    }
    let filling = 0xFFu8 >> used;
    let clean = table.chunks_exact(row_len(length)).all(|row| row[row.len() - 1] & filling == 0);
    if clean { Ok(()) } else { Err(BAD_ROWS) }
}

/// Applies the kept chunks of one write and counts them.
fn apply_row(target: &mut [u8], addr: usize, data: &[u8], row: &[u8]) -> u64 {
    let mut kept = 0;
    let end = addr + data.len();
    for chunk in chunks_of(addr, data.len()) {
        if row_bit(row, chunk) {
            let low = addr.max(chunk * CHUNK);
            let high = end.min((chunk + 1) * CHUNK);
            target[low..high].copy_from_slice(&data[low - addr..high - addr]);
            kept += 1;
        }
    }
    kept
}

fn apply_table(log: Log, table: &[u8], target: &mut [u8]) -> u64 {
    let bytes = row_len(target.len());
    let mut kept = 0;
    for (index, (addr, data)) in log.writes().enumerate() {
        kept += apply_row(target, addr, data, &table[index * bytes..(index + 1) * bytes]);
    }
    kept
}

enum Rule {
    Range { addr: u16, low: u8, high: u8 },
    Same { first: u16, second: u16 },
    All(Vec<Rule>),
    Any(Vec<Rule>),
}

struct Bits<'a> {
    bytes: &'a [u8],
    at: usize,
}

impl Bits<'_> {
    fn take(&mut self, width: usize) -> Option<u32> {
        let end = self.at + width;
        if end > 8 * self.bytes.len() {
            return None;
        }
        let mut window = 0u64;
        for index in self.at / 8..end.div_ceil(8) {
            window = window << 8 | u64::from(self.bytes[index]);
        }
        let spare = end.div_ceil(8) * 8 - end;
        self.at = end;
        Some((window >> spare) as u32 & ((1u32 << width) - 1))
    }

    fn rule(&mut self, levels: usize) -> Option<Rule> {
        if levels == 0 {
            return None;
        }
        match self.take(2)? {
            0 => Some(Rule::Range {
                addr: self.take(16)? as u16,
                low: self.take(8)? as u8,
                high: self.take(8)? as u8,
            }),
            1 => Some(Rule::Same { first: self.take(16)? as u16, second: self.take(16)? as u16 }),
            tag => {
                let count = self.take(6)?;
                let mut members = Vec::with_capacity(count as usize);
                for _ in 0..count {
                    members.push(self.rule(levels - 1)?);
                }
                Some(if tag == 2 { Rule::All(members) } else { Rule::Any(members) })
            }
        }
    }
}

fn parse(sheet: &[u8]) -> Result<Rule, u64> {
    if sheet.len() > LONGEST_SHEET {
        return Err(BAD_SHEET);
    }
    let mut bits = Bits { bytes: sheet, at: 0 };
    if bits.take(4) != Some(1) {
        return Err(BAD_SHEET);
    }
    let rule = bits.rule(DEEPEST).ok_or(BAD_SHEET)?;
    let filling = 8 * sheet.len() - bits.at;
    if filling < 8 && bits.take(filling) == Some(0) { Ok(rule) } else { Err(BAD_SHEET) }
}

impl Rule {
    fn holds(&self, image: &[u8]) -> bool {
        match *self {
            Rule::Range { addr, low, high } => {
                image.get(addr as usize).is_some_and(|&byte| low <= byte && byte <= high)
            }
            Rule::Same { first, second } => {
                let (first, second) = (image.get(first as usize), image.get(second as usize));
                first.is_some() && first == second
            }
            Rule::All(ref members) => members.iter().all(|member| member.holds(image)),
            Rule::Any(ref members) => members.iter().any(|member| member.holds(image)),
        }
    }
}

/// A choice point: where its bytes go, and the bytes.
#[derive(Clone, Copy)]
struct Piece<'a> {
    at: usize,
    data: &'a [u8],
}

/// The pieces of all writes in the order of the points, or 7.
fn pieces<'a>(
    writes: impl Iterator<Item = (usize, &'a [u8])>,
) -> Result<([Piece<'a>; MOST_POINTS], usize), u64> {
    let mut pieces = [Piece { at: 0, data: &[] }; MOST_POINTS];
    let mut count = 0;
    for (addr, data) in writes {
        for chunk in chunks_of(addr, data.len()) {
            let low = addr.max(chunk * CHUNK);
            let high = (addr + data.len()).min((chunk + 1) * CHUNK);
            *pieces.get_mut(count).ok_or(TOO_MANY_POINTS)? =
                Piece { at: low, data: &data[low - addr..high - addr] };
            count += 1;
        }
    }
    Ok((pieces, count))
}

/// Judges the log with the new write; the pair is the number and what it reports.
fn verdict(
    log: Log,
    image: &[u8],
    sheet: &[u8],
    work: &mut [u8],
    addr: u64,
    data: &[u8],
) -> Result<u64, (u64, Option<u64>)> {
    let silent = |number| (number, None);
    same_length(work, image).map_err(silent)?;
    let rule = parse(sheet).map_err(silent)?;
    log.room_for(image.len(), addr, data.len()).map_err(silent)?;
    let new = (addr as usize, data);
    let (pieces, count) = pieces(log.writes().chain([new])).map_err(silent)?;
    let pieces = &pieces[..count];
    work.copy_from_slice(image);
    // Only what some piece covers has to be set back for the next image.
    let low = pieces.iter().map(|piece| piece.at).min().unwrap_or(0);
    let high = pieces.iter().map(|piece| piece.at + piece.data.len()).max().unwrap_or(0);
    for choice in 0..1u64 << count {
        work[low..high].copy_from_slice(&image[low..high]);
        let mut rest = choice;
        while rest != 0 {
            let piece = pieces[rest.trailing_zeros() as usize];
            work[piece.at..piece.at + piece.data.len()].copy_from_slice(piece.data);
            rest &= rest - 1;
        }
        if !rule.holds(work) {
            return Err((DENIED, Some(choice)));
        }
    }
    Ok(count as u64)
}

/// The epoch's header, its table of `count` rows and the start after it.
fn epoch(tape: &[u8], start: u64, count: usize, length: usize) -> Result<(u8, &[u8], u64), u64> {
    let start = usize::try_from(start).map_err(|_| BAD_TAPE)?;
    let (&header, rows) = tape.get(start..).and_then(<[u8]>::split_first).ok_or(BAD_TAPE)?;
    if header != 0x80 && header != 0x00 {
        return Err(BAD_TAPE);
    }
    let table = rows.get(..count * row_len(length)).ok_or(BAD_TAPE)?;
    check_filling(table, length)?;
    Ok((header, table, (start + 1 + table.len()) as u64))
}

/// "Any of: byte addr is val0; byte addr is val1", 80 bits in all.
fn example_sheet(addr: u16, val0: u8, val1: u8) -> [u8; 10] {
    let (addr, val0, val1) = (u128::from(addr), u128::from(val0), u128::from(val1));
    let head = 1 << 76 | 3 << 74 | 2 << 68;
    let first = addr << 50 | val0 << 42 | val0 << 34;
    let second = addr << 16 | val1 << 8 | val1;
    let mut sheet = [0; 10];
    sheet.copy_from_slice(&(head | first | second).to_be_bytes()[6..]);
    sheet
}

fn number(done: Done) -> u64 {
    done.err().unwrap_or(DONE)
}

fn set(report: &mut u64, outcome: Result<u64, (u64, Option<u64>)>) -> u64 {
    match outcome {
        Ok(value) => {
            *report = value;
            DONE
        }
        Err((number, reported)) => {
            if let Some(value) = reported {
                *report = value;
            }
            number
        }
    }
}

pub struct Quick;

impl Quick {
    fn end_epoch(
        state: &mut [u64],
        image: &mut [u8],
        log: &[u8],
        tape: &[u8],
        start: &mut u64,
        predicted: &mut [u8],
        ending: u8,
    ) -> Result<u64, u64> {
        let log = Log::check(state, image.len(), log)?;
        same_length(predicted, image)?;
        let (header, table, next) = epoch(tape, *start, log.count(), image.len())?;
        if header != ending {
            return Err(OTHER_ENDING);
        }
        let mut kept = 0;
        if header == 0x80 {
            log.apply(image);
        } else {
            kept = apply_table(log, table, image);
        }
        predicted.copy_from_slice(image);
        state[0] = 0;
        *start = next;
        Ok(kept)
    }
}

impl Desk for Quick {
    fn open(&self, state: &mut [u64], image: &[u8], log: &[u8], sheet: &[u8]) -> u64 {
        if state.len() != STATE_WORDS || image.len() > LONGEST_IMAGE || log.len() != LOG_BYTES {
            return MISSHAPEN;
        }
        match parse(sheet) {
            Err(number) => number,
            Ok(rule) if !rule.holds(image) => IMAGE_BREAKS_SHEET,
            Ok(_) => {
                state.fill(0);
                DONE
            }
        }
    }

    fn write(
        &self,
        state: &mut [u64],
        image: &[u8],
        log: &mut [u8],
        addr: u64,
        data: &[u8],
    ) -> u64 {
        number((|| {
            let view = Log::check(state, image.len(), log)?;
            view.room_for(image.len(), addr, data.len())?;
            let used = view.used;
            append(state, log, used, addr, data);
            Ok(())
        })())
    }

    fn read(
        &self,
        state: &[u64],
        image: &[u8],
        log: &[u8],
        work: &mut [u8],
        addr: u64,
        len: u64,
    ) -> u64 {
        number((|| {
            let view = Log::check(state, image.len(), log)?;
            same_length(work, image)?;
            inside(addr, len, image.len())?;
            work.copy_from_slice(image);
            view.apply(work);
            Ok(())
        })())
    }

    fn flush(&self, state: &mut [u64], image: &mut [u8], log: &[u8]) -> u64 {
        number((|| {
            Log::check(state, image.len(), log)?.apply(image);
            state[0] = 0;
            Ok(())
        })())
    }

    fn judge(
        &self,
        state: &[u64],
        image: &[u8],
        log: &[u8],
        sheet: &[u8],
        work: &mut [u8],
        addr: u64,
        data: &[u8],
        report: &mut u64,
    ) -> u64 {
        let outcome = Log::check(state, image.len(), log)
            .map_err(|number| (number, None))
            .and_then(|view| verdict(view, image, sheet, work, addr, data));
        set(report, outcome)
    }

    fn cut(
        &self,
        state: &mut [u64],
        image: &mut [u8],
        log: &[u8],
        rows: &[u8],
        report: &mut u64,
    ) -> u64 {
        number((|| {
            let view = Log::check(state, image.len(), log)?;
            if rows.len() != view.count() * row_len(image.len()) {
                return Err(BAD_ROWS);
            }
            check_filling(rows, image.len())?;
            *report = apply_table(view, rows, image);
            state[0] = 0;
            Ok(())
        })())
    }

    fn gate(
        &self,
        state: &mut [u64],
        image: &[u8],
        log: &mut [u8],
        sheet: &[u8],
        work: &mut [u8],
        addr: u64,
        data: &[u8],
        report: &mut u64,
    ) -> u64 {
        let view = match Log::check(state, image.len(), log) {
            Ok(view) => view,
            Err(number) => return number,
        };
        let used = view.used;
        let outcome = verdict(view, image, sheet, work, addr, data);
        if outcome.is_ok() {
            append(state, log, used, addr, data);
        }
        set(report, outcome)
    }

    fn tape_write(
        &self,
        state: &mut [u64],
        image: &[u8],
        log: &mut [u8],
        tape: &[u8],
        start: u64,
        predicted: &mut [u8],
        addr: u64,
        data: &[u8],
    ) -> u64 {
        number((|| {
            let view = Log::check(state, image.len(), log)?;
            same_length(predicted, image)?;
            view.room_for(image.len(), addr, data.len())?;
            let (header, table, _) = epoch(tape, start, view.count() + 1, image.len())?;
            let used = view.used;
            append(state, log, used, addr, data);
            let longer = Log::check(state, image.len(), log)?;
            predicted.copy_from_slice(image);
            if header == 0x80 {
                longer.apply(predicted);
            } else {
                apply_table(longer, table, predicted);
            }
            Ok(())
        })())
    }

    fn tape_flush(
        &self,
        state: &mut [u64],
        image: &mut [u8],
        log: &[u8],
        tape: &[u8],
        start: &mut u64,
        predicted: &mut [u8],
    ) -> u64 {
        number(Quick::end_epoch(state, image, log, tape, start, predicted, 0x80).map(drop))
    }

    fn tape_cut(
        &self,
        state: &mut [u64],
        image: &mut [u8],
        log: &[u8],
        tape: &[u8],
        start: &mut u64,
        predicted: &mut [u8],
        report: &mut u64,
    ) -> u64 {
        let outcome = Quick::end_epoch(state, image, log, tape, start, predicted, 0x00);
        set(report, outcome.map_err(|number| (number, None)))
    }

    fn setup(&self, image: &mut [u8], addr: u64, val0: u8) -> u64 {
        if image.len() > LONGEST_IMAGE {
            return MISSHAPEN;
        }
        match usize::try_from(addr).ok().and_then(|addr| image.get_mut(addr)) {
            None => OUTSIDE,
            Some(byte) => {
                *byte = val0;
                DONE
            }
        }
    }

    fn run(
        &self,
        image: &mut [u8],
        log: &mut [u8],
        work: &mut [u8],
        addr: u64,
        val0: u8,
        val1: u8,
        rounds: u64,
    ) -> u64 {
        if image.len() > LONGEST_IMAGE || log.len() != LOG_BYTES || work.len() != image.len() {
            return MISSHAPEN;
        }
        if addr >= image.len() as u64 {
            return OUTSIDE;
        }
        if rounds > MOST_ROUNDS {
            return TOO_MANY_ROUNDS;
        }
        let sheet = &example_sheet(addr as u16, val0, val1);
        let mut state = [0; STATE_WORDS];
        let opened = self.open(&mut state, image, log, sheet);
        if opened != DONE {
            return opened;
        }
        let mut points = 0;
        for _ in 0..rounds {
            for [first, second] in [[val0, val1], [val1, val0]] {
                for value in [first, second] {
                    let data = [value];
                    let number =
                        self.gate(&mut state, image, log, sheet, work, addr, &data, &mut points);
                    if number != DONE {
                        return number;
                    }
                }
                self.flush(&mut state, image, log);
            }
        }
        DONE
    }
}
