//! One call with everything it is lent, and how that is written as a line of text.
//!
//! A line is the call's name, then `field=value` for each argument in the order of
//! the C function (`report` is left out, since nothing is read from it). Then may
//! follow `=>`, `number=` in decimal, `report=` if something is reported, and the
//! lent buffers that the call changed, each with its content afterwards.
//!
//! Values are hexadecimal. A byte string is parts with dots between them, a part
//! being pairs of digits or one pair repeated, as `00*1020` with the number of times
//! in decimal; the empty string is `-`. A state is its words with dots between
//! them, and a word may be repeated in the same way.

use crate::desk::Desk;
use crate::number::*;
use std::fmt::Write as _;

#[derive(Clone, Copy, Debug, PartialEq, Eq)]
pub enum Call {
    Open,
    Write,
    Read,
    Flush,
    Judge,
    Cut,
    Gate,
    TapeWrite,
    TapeFlush,
    TapeCut,
    Setup,
    Run,
}

/// An argument of a call, by the name that it has in the C functions.
#[derive(Clone, Copy, Debug, PartialEq, Eq)]
pub enum Field {
    State,
    Image,
    Log,
    Sheet,
    Rows,
    Tape,
    Start,
    Work,
    Predicted,
    Addr,
    Len,
    Data,
    Val0,
    Val1,
    Rounds,
    Report,
}

impl Call {
    pub const ALL: [Call; 12] = [
        Call::Open,
        Call::Write,
        Call::Read,
        Call::Flush,
        Call::Judge,
        Call::Cut,
        Call::Gate,
        Call::TapeWrite,
        Call::TapeFlush,
        Call::TapeCut,
        Call::Setup,
        Call::Run,
    ];

    pub fn name(self) -> &'static str {
        match self {
            Call::Open => "open",
            Call::Write => "write",
            Call::Read => "read",
            Call::Flush => "flush",
            Call::Judge => "judge",
            Call::Cut => "cut",
            Call::Gate => "gate",
            Call::TapeWrite => "tape_write",
            Call::TapeFlush => "tape_flush",
            Call::TapeCut => "tape_cut",
            Call::Setup => "setup",
            Call::Run => "run",
        }
    }

    pub fn named(name: &str) -> Option<Call> {
        Call::ALL.into_iter().find(|call| call.name() == name)
    }

    /// The arguments, in the order of the C function.
    pub fn fields(self) -> &'static [Field] {
        use Field::*;
        match self {
            Call::Open => &[State, Image, Log, Sheet],
            Call::Write => &[State, Image, Log, Addr, Data],
            Call::Read => &[State, Image, Log, Work, Addr, Len],
            Call::Flush => &[State, Image, Log],
            Call::Judge => &[State, Image, Log, Sheet, Work, Addr, Data, Report],
            Call::Cut => &[State, Image, Log, Rows, Report],
            Call::Gate => &[State, Image, Log, Sheet, Work, Addr, Data, Report],
            Call::TapeWrite => &[State, Image, Log, Tape, Start, Predicted, Addr, Data],
            Call::TapeFlush => &[State, Image, Log, Tape, Start, Predicted],
            Call::TapeCut => &[State, Image, Log, Tape, Start, Predicted, Report],
            Call::Setup => &[Image, Addr, Val0],
            Call::Run => &[Image, Log, Work, Addr, Val0, Val1, Rounds],
        }
    }

    pub fn takes(self, field: Field) -> bool {
        self.fields().contains(&field)
    }

    /// The numbers that document 01 says the call can meet.
    pub fn numbers(self) -> &'static [u64] {
        match self {
            Call::Open => &[DONE, MISSHAPEN, BAD_SHEET, IMAGE_BREAKS_SHEET],
            Call::Write => &[DONE, MISSHAPEN, OUTSIDE, TOO_MANY_WRITES, TOO_MANY_BYTES],
            Call::Read => &[DONE, MISSHAPEN, OUTSIDE],
            Call::Flush => &[DONE, MISSHAPEN],
            Call::Judge | Call::Gate => &[
                DONE,
                MISSHAPEN,
                BAD_SHEET,
                OUTSIDE,
                TOO_MANY_WRITES,
                TOO_MANY_BYTES,
                TOO_MANY_POINTS,
                DENIED,
            ],
            Call::Cut => &[DONE, MISSHAPEN, BAD_ROWS],
            Call::TapeWrite => {
                &[DONE, MISSHAPEN, OUTSIDE, TOO_MANY_WRITES, TOO_MANY_BYTES, BAD_TAPE, BAD_ROWS]
            }
            Call::TapeFlush | Call::TapeCut => &[DONE, MISSHAPEN, BAD_TAPE, BAD_ROWS, OTHER_ENDING],
            Call::Setup => &[DONE, MISSHAPEN, OUTSIDE],
            Call::Run => &[DONE, MISSHAPEN, OUTSIDE, TOO_MANY_ROUNDS, IMAGE_BREAKS_SHEET],
        }
    }
}

impl Field {
    pub fn name(self) -> &'static str {
        match self {
            Field::State => "state",
            Field::Image => "image",
            Field::Log => "log",
            Field::Sheet => "sheet",
            Field::Rows => "rows",
            Field::Tape => "tape",
            Field::Start => "start",
            Field::Work => "work",
            Field::Predicted => "predicted",
            Field::Addr => "addr",
            Field::Len => "len",
            Field::Data => "data",
            Field::Val0 => "val0",
            Field::Val1 => "val1",
            Field::Rounds => "rounds",
            Field::Report => "report",
        }
    }
}

/// A value no call reports, so that a report left alone can be told.
pub const UNREPORTED: u64 = 0xDEAD_0000_BEEF_FFFF;

/// A call and all that it may be lent; fields that the call does not take are empty.
#[derive(Clone, Debug, PartialEq, Eq)]
pub struct Case {
    pub call: Call,
    pub state: Vec<u64>,
    pub image: Vec<u8>,
    pub log: Vec<u8>,
    pub sheet: Vec<u8>,
    pub rows: Vec<u8>,
    pub tape: Vec<u8>,
    pub start: u64,
    pub work: Vec<u8>,
    pub predicted: Vec<u8>,
    pub addr: u64,
    pub len: u64,
    pub data: Vec<u8>,
    pub val0: u8,
    pub val1: u8,
    pub rounds: u64,
    pub report: u64,
}

/// The memory of a case, lent for the time of one call.
pub struct Lent<'a> {
    pub state: &'a mut [u64],
    pub image: &'a mut [u8],
    pub log: &'a mut [u8],
    pub sheet: &'a mut [u8],
    pub rows: &'a mut [u8],
    pub tape: &'a mut [u8],
    pub start: &'a mut u64,
    pub work: &'a mut [u8],
    pub predicted: &'a mut [u8],
    pub data: &'a mut [u8],
    pub report: &'a mut u64,
}

/// The call and what it is passed by value.
#[derive(Clone, Copy)]
struct Plain {
    call: Call,
    addr: u64,
    len: u64,
    val0: u8,
    val1: u8,
    rounds: u64,
}

impl Plain {
    fn put(self, desk: &dyn Desk, lent: Lent<'_>) -> u64 {
        let Lent { state, image, log, sheet, rows, tape, start, work, predicted, data, report } =
            lent;
        let Plain { call, addr, len, val0, val1, rounds } = self;
        match call {
            Call::Open => desk.open(state, image, log, sheet),
            Call::Write => desk.write(state, image, log, addr, data),
            Call::Read => desk.read(state, image, log, work, addr, len),
            Call::Flush => desk.flush(state, image, log),
            Call::Judge => desk.judge(state, image, log, sheet, work, addr, data, report),
            Call::Cut => desk.cut(state, image, log, rows, report),
            Call::Gate => desk.gate(state, image, log, sheet, work, addr, data, report),
            Call::TapeWrite => {
                desk.tape_write(state, image, log, tape, *start, predicted, addr, data)
            }
            Call::TapeFlush => desk.tape_flush(state, image, log, tape, start, predicted),
            Call::TapeCut => desk.tape_cut(state, image, log, tape, start, predicted, report),
            Call::Setup => desk.setup(image, addr, val0),
            Call::Run => desk.run(image, log, work, addr, val0, val1, rounds),
        }
    }
}

impl Case {
    pub fn new(call: Call) -> Case {
        Case {
            call,
            state: Vec::new(),
            image: Vec::new(),
            log: Vec::new(),
            sheet: Vec::new(),
            rows: Vec::new(),
            tape: Vec::new(),
            start: 0,
            work: Vec::new(),
            predicted: Vec::new(),
            addr: 0,
            len: 0,
            data: Vec::new(),
            val0: 0,
            val1: 0,
            rounds: 0,
            report: UNREPORTED,
        }
    }

    /// Puts the call to a desk with the case's own memory and gives the number.
    pub fn put_to(&mut self, desk: &dyn Desk) -> u64 {
        let plain = self.plain();
        plain.put(desk, self.lent())
    }

    /// Puts the call to a desk with other memory.
    pub fn put_lending(&self, desk: &dyn Desk, lent: Lent<'_>) -> u64 {
        self.plain().put(desk, lent)
    }

    fn plain(&self) -> Plain {
        Plain {
            call: self.call,
            addr: self.addr,
            len: self.len,
            val0: self.val0,
            val1: self.val1,
            rounds: self.rounds,
        }
    }

    fn lent(&mut self) -> Lent<'_> {
        Lent {
            state: &mut self.state,
            image: &mut self.image,
            log: &mut self.log,
            sheet: &mut self.sheet,
            rows: &mut self.rows,
            tape: &mut self.tape,
            start: &mut self.start,
            work: &mut self.work,
            predicted: &mut self.predicted,
            data: &mut self.data,
            report: &mut self.report,
        }
    }

    pub fn bytes(&self, field: Field) -> Option<&Vec<u8>> {
        match field {
            Field::Image => Some(&self.image),
            Field::Log => Some(&self.log),
            Field::Sheet => Some(&self.sheet),
            Field::Rows => Some(&self.rows),
            Field::Tape => Some(&self.tape),
            Field::Work => Some(&self.work),
            Field::Predicted => Some(&self.predicted),
            Field::Data => Some(&self.data),
            _ => None,
        }
    }

    pub fn bytes_mut(&mut self, field: Field) -> Option<&mut Vec<u8>> {
        match field {
            Field::Image => Some(&mut self.image),
            Field::Log => Some(&mut self.log),
            Field::Sheet => Some(&mut self.sheet),
            Field::Rows => Some(&mut self.rows),
            Field::Tape => Some(&mut self.tape),
            Field::Work => Some(&mut self.work),
            Field::Predicted => Some(&mut self.predicted),
            Field::Data => Some(&mut self.data),
            _ => None,
        }
    }

    fn number(&self, field: Field) -> u64 {
        match field {
            Field::Start => self.start,
            Field::Addr => self.addr,
            Field::Len => self.len,
            Field::Val0 => u64::from(self.val0),
            Field::Val1 => u64::from(self.val1),
            Field::Rounds => self.rounds,
            Field::Report => self.report,
            _ => unreachable!("{} is no plain number", field.name()),
        }
    }

    fn value(&self, field: Field, brief: bool) -> String {
        if field == Field::State {
            words_text(&self.state, brief)
        } else if let Some(bytes) = self.bytes(field) {
            bytes_text(bytes, brief)
        } else {
            format!("{:x}", self.number(field))
        }
    }

    /// The call and its arguments as text; `brief` uses repeats.
    pub fn line(&self, brief: bool) -> String {
        let mut line = self.call.name().to_string();
        for field in self.call.fields() {
            if *field != Field::Report {
                let _ = write!(line, " {}={}", field.name(), self.value(*field, brief));
            }
        }
        line
    }

    /// What became of the call, as text: `after` is this case with the memory afterwards.
    pub fn outcome(&self, number: u64, after: &Case, brief: bool) -> String {
        let mut text = format!("=> number={number}");
        for field in [Field::Report, Field::State, Field::Image, Field::Log] {
            self.note_change(&mut text, field, after, brief);
        }
        for field in [Field::Start, Field::Work, Field::Predicted] {
            self.note_change(&mut text, field, after, brief);
        }
        text
    }

    fn note_change(&self, text: &mut String, field: Field, after: &Case, brief: bool) {
        if self.call.takes(field) && self.value(field, false) != after.value(field, false) {
            let _ = write!(text, " {}={}", field.name(), after.value(field, brief));
        }
    }

    /// Reads a line back; what follows `=>` is left to the caller.
    pub fn parse(line: &str) -> Result<Case, String> {
        let line = line.split("=>").next().unwrap_or("");
        let mut words = line.split_whitespace();
        let name = words.next().ok_or("an empty line")?;
        let call = Call::named(name).ok_or_else(|| format!("no call is named {name}"))?;
        let mut case = Case::new(call);
        let wanted = call.fields().iter().filter(|field| **field != Field::Report);
        for field in wanted {
            let word = words.next().ok_or_else(|| format!("{} is missing", field.name()))?;
            let value = word
                .strip_prefix(field.name())
                .and_then(|rest| rest.strip_prefix('='))
                .ok_or_else(|| format!("{word} stands where {} should", field.name()))?;
            case.set(*field, value)?;
        }
        match words.next() {
            None => Ok(case),
            Some(word) => Err(format!("{word} is one too many")),
        }
    }

    fn set(&mut self, field: Field, value: &str) -> Result<(), String> {
        if field == Field::State {
            self.state = parse_words(value)?;
            return Ok(());
        }
        if let Some(bytes) = self.bytes_mut(field) {
            *bytes = parse_bytes(value)?;
            return Ok(());
        }
        let number = parse_hex(value)?;
        let byte = || u8::try_from(number).map_err(|_| format!("{value} is no byte"));
        match field {
            Field::Start => self.start = number,
            Field::Addr => self.addr = number,
            Field::Len => self.len = number,
            Field::Val0 => self.val0 = byte()?,
            Field::Val1 => self.val1 = byte()?,
            Field::Rounds => self.rounds = number,
            _ => unreachable!("{} is read above or not at all", field.name()),
        }
        Ok(())
    }
}

/// Lengths of the runs of equal items.
fn runs<T: PartialEq>(items: &[T]) -> impl Iterator<Item = &[T]> {
    items.chunk_by(|one, next| one == next)
}

fn bytes_text(bytes: &[u8], brief: bool) -> String {
    // A shorter run is not worth its own part.
    const WORTH_A_REPEAT: usize = 8;
    if bytes.is_empty() {
        return "-".to_string();
    }
    let mut text = String::new();
    let mut in_digits = false;
    for run in runs(bytes) {
        if brief && run.len() >= WORTH_A_REPEAT {
            let dot = if text.is_empty() { "" } else { "." };
            let _ = write!(text, "{dot}{:02x}*{}", run[0], run.len());
            in_digits = false;
        } else {
            if !in_digits && !text.is_empty() {
                text.push('.');
            }
            for byte in run {
                let _ = write!(text, "{byte:02x}");
            }
            in_digits = true;
        }
    }
    text
}

fn words_text(words: &[u64], brief: bool) -> String {
    if words.is_empty() {
        return "-".to_string();
    }
    let mut parts = Vec::new();
    for run in runs(words) {
        if brief && run.len() > 1 {
            parts.push(format!("{:x}*{}", run[0], run.len()));
        } else {
            parts.extend(run.iter().map(|word| format!("{word:x}")));
        }
    }
    parts.join(".")
}

fn parse_hex(text: &str) -> Result<u64, String> {
    u64::from_str_radix(text, 16).map_err(|_| format!("{text} is no number"))
}

/// A part's digits and how often they stand.
fn part(text: &str) -> Result<(&str, usize), String> {
    match text.split_once('*') {
        None => Ok((text, 1)),
        Some((digits, times)) => {
            let times = times.parse().map_err(|_| format!("{times} is no number of times"))?;
            Ok((digits, times))
        }
    }
}

fn parse_bytes(text: &str) -> Result<Vec<u8>, String> {
    let mut bytes = Vec::new();
    if text == "-" {
        return Ok(bytes);
    }
    for piece in text.split('.') {
        let (digits, times) = part(piece)?;
        if digits.len() % 2 != 0 || (times != 1 && digits.len() != 2) {
            return Err(format!("{piece} is no part of a byte string"));
        }
        for _ in 0..times {
            for at in (0..digits.len()).step_by(2) {
                let pair = digits.get(at..at + 2).ok_or("a byte string is ASCII")?;
                bytes.push(parse_hex(pair)? as u8);
            }
        }
    }
    Ok(bytes)
}

fn parse_words(text: &str) -> Result<Vec<u64>, String> {
    let mut words = Vec::new();
    if text == "-" {
        return Ok(words);
    }
    for piece in text.split('.') {
        let (digits, times) = part(piece)?;
        let word = parse_hex(digits)?;
        words.extend(std::iter::repeat_n(word, times));
    }
    Ok(words)
}

#[cfg(test)]
mod tests {
    use super::*;

    #[test]
    fn byte_strings_read_back() {
        let zeros = [0u8; 20];
        let mixed = [&[1, 2, 2][..], &zeros, &[9]].concat();
        for bytes in [&[][..], &[0], &[1, 2, 3], &zeros, &mixed] {
            for brief in [true, false] {
                assert_eq!(parse_bytes(&bytes_text(bytes, brief)).as_deref(), Ok(bytes));
            }
        }
        assert_eq!(bytes_text(&mixed, true), "010202.00*20.09");
    }

    #[test]
    fn states_read_back() {
        for words in [&[][..], &[0], &[1, 6, 4, 0, 0], &[u64::MAX, u64::MAX]] {
            for brief in [true, false] {
                assert_eq!(parse_words(&words_text(words, brief)).as_deref(), Ok(words));
            }
        }
        assert_eq!(words_text(&[1, 6, 4, 0, 0], true), "1.6.4.0*2");
    }

    #[test]
    fn a_line_reads_back() {
        let mut case = Case::new(Call::Write);
        case.state = vec![0; 65];
        case.image = vec![1, 2, 3];
        case.log = vec![0; 1024];
        case.addr = u64::MAX;
        case.data = vec![7];
        assert_eq!(Case::parse(&case.line(true)), Ok(case.clone()));
        assert_eq!(Case::parse(&case.line(false)), Ok(case));
        assert!(Case::parse("write state=0").is_err());
        assert!(Case::parse("wriggle").is_err());
    }
}
