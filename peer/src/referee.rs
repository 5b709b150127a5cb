//! Puts each case to the oracle and to the desk under test, and counts what came of it.

use crate::case::{Call, Case, Field, Lent};
use crate::desk::{Desk, Oracle};
use crate::log;
use std::fmt;
use std::ptr;
use std::sync::atomic::{AtomicPtr, Ordering};

/// The case that a desk is working on, for a program that wants to tell which one a desk
/// did not come back from. It is null between calls.
pub static UNDER_WAY: AtomicPtr<Case> = AtomicPtr::new(ptr::null_mut());

/// Cells of known content on either side of every lent buffer.
const GUARD: usize = 16;

trait Cell: Copy + PartialEq {
    fn mark(place: usize) -> Self;
}

impl Cell for u8 {
    fn mark(place: usize) -> u8 {
        0xC3 ^ (place as u8).wrapping_mul(0x1D)
    }
}

impl Cell for u64 {
    fn mark(place: usize) -> u64 {
        0xC35A_C35A_C35A_C35A ^ (place as u64).wrapping_mul(0x1D1D_1D1D)
    }
}

/// A buffer between two guards.
struct Fenced<T> {
    cells: Vec<T>,
    len: usize,
}

impl<T: Cell> Fenced<T> {
    fn new() -> Fenced<T> {
        Fenced { cells: Vec::new(), len: 0 }
    }

    fn fill(&mut self, content: &[T]) {
        self.cells.clear();
        self.len = content.len();
        self.cells.extend((0..GUARD).map(T::mark));
        self.cells.extend_from_slice(content);
        self.cells.extend((0..GUARD).map(|place| T::mark(place + GUARD)));
    }

    fn content(&mut self) -> &mut [T] {
        &mut self.cells[GUARD..GUARD + self.len]
    }

    fn holds(&self, content: &[T]) -> bool {
        self.cells[GUARD..GUARD + self.len] == *content
    }

    fn guards_stand(&self) -> bool {
        let (before, rest) = self.cells.split_at(GUARD);
        let after = &rest[self.len..];
        (0..GUARD)
            .all(|place| before[place] == T::mark(place) && after[place] == T::mark(place + GUARD))
    }
}

/// Everything a case may be lent, each between guards.
struct Memory {
    state: Fenced<u64>,
    image: Fenced<u8>,
    log: Fenced<u8>,
    sheet: Fenced<u8>,
    rows: Fenced<u8>,
    tape: Fenced<u8>,
    start: Fenced<u64>,
    work: Fenced<u8>,
    predicted: Fenced<u8>,
    data: Fenced<u8>,
    report: Fenced<u64>,
}

impl Memory {
    fn new() -> Memory {
        Memory {
            state: Fenced::new(),
            image: Fenced::new(),
            log: Fenced::new(),
            sheet: Fenced::new(),
            rows: Fenced::new(),
            tape: Fenced::new(),
            start: Fenced::new(),
            work: Fenced::new(),
            predicted: Fenced::new(),
            data: Fenced::new(),
            report: Fenced::new(),
        }
    }

    fn fill(&mut self, case: &Case) {
        self.state.fill(&case.state);
        self.image.fill(&case.image);
        self.log.fill(&case.log);
        self.sheet.fill(&case.sheet);
        self.rows.fill(&case.rows);
        self.tape.fill(&case.tape);
        self.start.fill(&[case.start]);
        self.work.fill(&case.work);
        self.predicted.fill(&case.predicted);
        self.data.fill(&case.data);
        self.report.fill(&[case.report]);
    }

    fn lent(&mut self) -> Lent<'_> {
        Lent {
            state: self.state.content(),
            image: self.image.content(),
            log: self.log.content(),
            sheet: self.sheet.content(),
            rows: self.rows.content(),
            tape: self.tape.content(),
            start: &mut self.start.content()[0],
            work: self.work.content(),
            predicted: self.predicted.content(),
            data: self.data.content(),
            report: &mut self.report.content()[0],
        }
    }

    /// What differs from `expected`, or a guard that fell.
    fn fault(&self, expected: &Case) -> Option<String> {
        let checks = [
            (Field::State, self.state.guards_stand(), self.state.holds(&expected.state)),
            (Field::Image, self.image.guards_stand(), self.image.holds(&expected.image)),
            (Field::Log, self.log.guards_stand(), self.log.holds(&expected.log)),
            (Field::Sheet, self.sheet.guards_stand(), self.sheet.holds(&expected.sheet)),
            (Field::Rows, self.rows.guards_stand(), self.rows.holds(&expected.rows)),
            (Field::Tape, self.tape.guards_stand(), self.tape.holds(&expected.tape)),
            (Field::Start, self.start.guards_stand(), self.start.holds(&[expected.start])),
            (Field::Work, self.work.guards_stand(), self.work.holds(&expected.work)),
            (
                Field::Predicted,
                self.predicted.guards_stand(),
                self.predicted.holds(&expected.predicted),
            ),
            (Field::Data, self.data.guards_stand(), self.data.holds(&expected.data)),
            (Field::Report, self.report.guards_stand(), self.report.holds(&[expected.report])),
        ];
        checks.iter().find_map(|(field, guards_stand, same)| match (guards_stand, same) {
            (false, _) => Some(format!("a guard beside {} changed", field.name())),
            (true, false) => Some(format!("{} differs", field.name())),
            (true, true) => None,
        })
    }

    fn read_back(&mut self, case: &Case) -> Case {
        Case {
            state: self.state.content().to_vec(),
            image: self.image.content().to_vec(),
            log: self.log.content().to_vec(),
            sheet: self.sheet.content().to_vec(),
            rows: self.rows.content().to_vec(),
            tape: self.tape.content().to_vec(),
            start: self.start.content()[0],
            work: self.work.content().to_vec(),
            predicted: self.predicted.content().to_vec(),
            data: self.data.content().to_vec(),
            report: self.report.content()[0],
            ..case.clone()
        }
    }
}

/// A case on which the desk and the oracle part, told so that it can be replayed.
#[derive(Debug)]
pub struct Difference {
    pub what: String,
    pub case: String,
    pub oracle: String,
    pub desk: String,
}

impl fmt::Display for Difference {
    fn fmt(&self, out: &mut fmt::Formatter<'_>) -> fmt::Result {
        writeln!(out, "difference: {}", self.what)?;
        writeln!(out, "oracle  {}", self.oracle)?;
        writeln!(out, "library {}", self.desk)?;
        writeln!(out, "the case, one line for `compare --replay FILE`:")?;
        writeln!(out, "{}", self.case)
    }
}

const MOST_NUMBERS: usize = 13;
const TALLIED_POINTS: usize = 18;

pub struct Referee<'a> {
    desks: Vec<&'a dyn Desk>,
    memory: Memory,
    pub calls: u64,
    tallies: [[u64; MOST_NUMBERS]; Call::ALL.len()],
    /// Verdicts of gate and judging call by n, the last place for all above 16.
    verdicts: [u64; TALLIED_POINTS],
    /// Called now and then, between cases.
    pub going_on: fn(),
}

impl<'a> Referee<'a> {
    /// The first desk gets every case; the others, which are to differ only in how
    /// they pass an empty buffer, get the cases that have one.
    pub fn new(desks: Vec<&'a dyn Desk>) -> Referee<'a> {
        Referee {
            desks,
            memory: Memory::new(),
            calls: 0,
            tallies: [[0; MOST_NUMBERS]; Call::ALL.len()],
            verdicts: [0; TALLIED_POINTS],
            going_on: || {},
        }
    }

    /// Compares one case. The number and the case with its memory afterwards come back.
    pub fn compare(&mut self, case: &Case) -> Result<(u64, Case), Box<Difference>> {
        if self.calls.is_multiple_of(256) {
            (self.going_on)();
        }
        let mut after = case.clone();
        let number = after.put_to(&Oracle);
        let empty = |field: &Field| case.bytes(*field).is_some_and(Vec::is_empty);
        let has_empty = case.call.fields().iter().any(empty) || case.state.is_empty();
        let desks = if has_empty { self.desks.len() } else { 1 };
        for desk in &self.desks[..desks] {
            self.memory.fill(case);
            UNDER_WAY.store(ptr::from_ref(case).cast_mut(), Ordering::Relaxed);
            let found = case.put_lending(*desk, self.memory.lent());
            UNDER_WAY.store(ptr::null_mut(), Ordering::Relaxed);
            let fault = if found != number {
                Some("the number differs".to_string())
            } else {
                self.memory.fault(&after)
            };
            if let Some(what) = fault {
                return Err(Box::new(Difference {
                    what: format!("{}: {what}", case.call.name()),
                    case: case.line(false),
                    oracle: case.outcome(number, &after, false),
                    desk: case.outcome(found, &self.memory.read_back(case), false),
                }));
            }
        }
        self.count(case, number);
        Ok((number, after))
    }

    fn count(&mut self, case: &Case, number: u64) {
        self.calls += 1;
        self.tallies[case.call as usize][number as usize] += 1;
        if matches!(case.call, Call::Judge | Call::Gate) && matches!(number, 0 | 7 | 8) {
            let writes = log::outstanding(&case.state, &case.image, &case.log);
            let mut writes = writes.expect("a verdict comes after number 1");
            writes.push(log::Write { addr: case.addr as usize, data: case.data.clone() });
            let points = log::points(&writes).len();
            self.verdicts[points.min(TALLIED_POINTS - 1)] += 1;
        }
    }

    /// The tallies that document 01 says can occur and that are zero.
    pub fn never_met(&self, calls: &[Call]) -> Vec<String> {
        let mut never = Vec::new();
        for call in calls {
            for number in call.numbers() {
                if self.tallies[*call as usize][*number as usize] == 0 {
                    never.push(format!("{} never gave {number}", call.name()));
                }
            }
        }
        never
    }

    /// The tallies as a table: a row for each call, a column for each number, with a
    /// dash where the call cannot meet the number.
    pub fn table(&self) -> String {
        let mut text = format!("{:<11}", "call");
        for number in 0..MOST_NUMBERS {
            text += &format!("{number:>9}");
        }
        text += &format!("{:>10}\n", "all");
        for call in Call::ALL {
            let row = &self.tallies[call as usize];
            text += &format!("{:<11}", call.name());
            for (number, tally) in row.iter().enumerate() {
                if call.numbers().contains(&(number as u64)) {
                    text += &format!("{tally:>9}");
                } else {
                    text += &format!("{:>9}", "-");
                }
            }
            text += &format!("{:>10}\n", row.iter().sum::<u64>());
        }
        text += "verdicts by n:";
        for (points, tally) in self.verdicts.iter().enumerate() {
            let above = if points == TALLIED_POINTS - 1 { "+" } else { "" };
            text += &format!(" {points}{above}:{tally}");
        }
        text + "\n"
    }
}

#[cfg(test)]
mod tests {
    use super::*;

    #[test]
    fn a_step_outside_on_either_side_is_seen() {
        for outside in [GUARD - 1, GUARD + 3, 0, 2 * GUARD + 2] {
            let mut buffer = Fenced::new();
            buffer.fill(&[7u8, 8, 9]);
            assert!(buffer.guards_stand() && buffer.holds(&[7, 8, 9]));
            buffer.cells[outside] ^= 1;
            assert!(!buffer.guards_stand() && buffer.holds(&[7, 8, 9]));
        }
    }

    #[test]
    fn a_change_inside_is_no_fallen_guard() {
        let mut buffer = Fenced::new();
        buffer.fill(&[7u64]);
        buffer.content()[0] = 8;
        assert!(buffer.guards_stand() && !buffer.holds(&[7]));
    }
}
