//! Document 01's desk trials, with the answers it gives for them.

use crate::case::{Call, Case, Field};
use crate::number::*;
use crate::{LOG_BYTES, STATE_WORDS};

/// A case, and what document 01 says of it.
pub struct Trial {
    pub name: String,
    pub case: Case,
    pub number: u64,
    pub report: Option<u64>,
    /// Bytes that a lent buffer holds afterwards, from an address on.
    pub holds: Vec<(Field, usize, Vec<u8>)>,
    /// The tape's start afterwards, where it is handed back.
    pub start: Option<u64>,
}

const ALWAYS: [u8; 2] = [0x18, 0x00];
const NEVER: [u8; 2] = [0x1C, 0x00];
const SEVEN_IS_EIGHT: [u8; 5] = [0x14, 0x00, 0x1C, 0x00, 0x20];
const EIGHT_IS_NINE: [u8; 5] = [0x14, 0x00, 0x20, 0x00, 0x24];
const THREE_IS_11_OR_22: [u8; 10] = [0x1C, 0x20, 0x00, 0x0C, 0x44, 0x44, 0x00, 0x03, 0x22, 0x22];
const NOUGHT_OR_EIGHT_IS_0: [u8; 10] = [0x1C, 0x20, 0x00, 0x00, 0x00, 0x00, 0x00, 0x08, 0x00, 0x00];

const A: (u64, [u8; 4]) = (6, [0x11, 0x22, 0x33, 0x44]);
const B: (u64, [u8; 2]) = (7, [0xAA, 0xBB]);

/// A case on `length` zeros with the given writes outstanding.
fn outstanding(call: Call, length: usize, writes: &[(u64, &[u8])]) -> Case {
    let mut case = Case::new(call);
    case.state = vec![0; STATE_WORDS];
    case.log = vec![0; LOG_BYTES];
    let mut used = 0;
    for (index, (addr, data)) in writes.iter().enumerate() {
        case.state[1 + 2 * index] = *addr;
        case.state[2 + 2 * index] = data.len() as u64;
        case.log[used..used + data.len()].copy_from_slice(data);
        used += data.len();
    }
    case.state[0] = writes.len() as u64;
    case.image = vec![0; length];
    if call.takes(Field::Work) {
        case.work = vec![0xEE; length];
    }
    if call.takes(Field::Predicted) {
        case.predicted = vec![0xEE; length];
    }
    case
}

fn trial(name: &str, case: Case, number: u64) -> Trial {
    let name = name.to_string();
    Trial { name, case, number, report: None, holds: Vec::new(), start: None }
}

impl Trial {
    fn reports(mut self, value: u64) -> Trial {
        self.report = Some(value);
        self
    }

    fn holding(mut self, field: Field, at: usize, bytes: &[u8]) -> Trial {
        self.holds.push((field, at, bytes.to_vec()));
        self
    }

    fn starting(mut self, start: u64) -> Trial {
        self.start = Some(start);
        self
    }
}

fn cut(writes: &[(u64, &[u8])], length: usize, rows: &[u8]) -> Case {
    let mut case = outstanding(Call::Cut, length, writes);
    case.rows = rows.to_vec();
    case
}

fn gate(call: Call, case: &Case, sheet: &[u8], addr: u64, data: &[u8]) -> Case {
    let mut case = case.clone();
    case.call = call;
    case.sheet = sheet.to_vec();
    case.addr = addr;
    case.data = data.to_vec();
    case.work = vec![0xEE; case.image.len()];
    case
}

fn by_tape(call: Call, writes: &[(u64, &[u8])], tape: &[u8], start: u64) -> Case {
    let mut case = outstanding(call, 16, writes);
    case.tape = tape.to_vec();
    case.start = start;
    case
}

fn writing(mut case: Case, addr: u64, data: &[u8]) -> Case {
    case.addr = addr;
    case.data = data.to_vec();
    case
}

/// All the trials, in document 01's order.
pub fn trials() -> Vec<Trial> {
    let mut all = Vec::new();
    sheets(&mut all);
    cuts(&mut all);
    tapes(&mut all);
    gates(&mut all);
    chunk_counts(&mut all);
    limits(&mut all);
    example(&mut all);
    all
}

fn sheets(all: &mut Vec<Trial>) {
    let opening = |sheet: &[u8], bytes: &[(usize, u8)]| {
        let mut case = outstanding(Call::Open, 16, &[]);
        case.sheet = sheet.to_vec();
        for (at, byte) in bytes {
            case.image[*at] = *byte;
        }
        case
    };
    all.push(trial("18 00 always holds", opening(&ALWAYS, &[]), DONE));
    all.push(trial("1C 00 never holds", opening(&NEVER, &[]), IMAGE_BREAKS_SHEET));
    all.push(trial("7 = 8 on zeros", opening(&SEVEN_IS_EIGHT, &[]), DONE));
    all.push(trial("7 = 8 on two 5s", opening(&SEVEN_IS_EIGHT, &[(7, 5), (8, 5)]), DONE));
    all.push(trial("7 = 8 broken", opening(&SEVEN_IS_EIGHT, &[(7, 5)]), IMAGE_BREAKS_SHEET));
    all.push(trial("3 is 11", opening(&THREE_IS_11_OR_22, &[(3, 0x11)]), DONE));
    all.push(trial("3 is 22", opening(&THREE_IS_11_OR_22, &[(3, 0x22)]), DONE));
    all.push(trial("3 is 0", opening(&THREE_IS_11_OR_22, &[]), IMAGE_BREAKS_SHEET));
    all.push(trial("3 is 12", opening(&THREE_IS_11_OR_22, &[(3, 0x12)]), IMAGE_BREAKS_SHEET));
}

fn cuts(all: &mut Vec<Trial>) {
    let both: [(u64, &[u8]); 2] = [(A.0, &A.1), (B.0, &B.1)];
    let mut read = outstanding(Call::Read, 16, &both);
    read.addr = 6;
    read.len = 4;
    all.push(trial("read", read, DONE).holding(Field::Work, 6, &[0x11, 0xAA, 0xBB, 0x44]));
    for (rows, left) in [
        ([0x80, 0x40], [0x11, 0x22, 0xBB, 0x00]),
        ([0x40, 0x80], [0x00, 0xAA, 0x33, 0x44]),
        ([0xC0, 0x00], [0x11, 0x22, 0x33, 0x44]),
    ] {
        let name = format!("cut with rows {rows:02X?}");
        all.push(trial(&name, cut(&both, 16, &rows), DONE).reports(2).holding(
            Field::Image,
            6,
            &left,
        ));
    }
    let bad: [&[u8]; 5] = [&[0xA0, 0x40], &[0x80, 0xA0], &[0x80], &[0x80, 0x40, 0x00], &[]];
    for rows in bad {
        let name = format!("cut with rows {rows:02X?}");
        all.push(trial(&name, cut(&both, 16, rows), BAD_ROWS));
    }
}

fn tapes(all: &mut Vec<Trial>) {
    let none: [(u64, &[u8]); 0] = [];
    let one: [(u64, &[u8]); 1] = [(A.0, &A.1)];
    let both: [(u64, &[u8]); 2] = [(A.0, &A.1), (B.0, &B.1)];

    let cutting = [0x00, 0x80, 0x40];
    let first = writing(by_tape(Call::TapeWrite, &none, &cutting, 0), A.0, &A.1);
    all.push(
        trial("tape 00 80 40, A", first, DONE)
            .holding(Field::Predicted, 6, &[0x11, 0x22, 0x00, 0x00])
            .starting(0),
    );
    let second = writing(by_tape(Call::TapeWrite, &one, &cutting, 0), B.0, &B.1);
    all.push(
        trial("tape 00 80 40, B", second, DONE)
            .holding(Field::Predicted, 6, &[0x11, 0x22, 0xBB, 0x00])
            .starting(0),
    );
    let flush = by_tape(Call::TapeFlush, &both, &cutting, 0);
    all.push(trial("tape 00 80 40, flush", flush, OTHER_ENDING).starting(0));
    let cut = by_tape(Call::TapeCut, &both, &cutting, 0);
    all.push(
        trial("tape 00 80 40, cut", cut, DONE)
            .reports(2)
            .holding(Field::Image, 6, &[0x11, 0x22, 0xBB, 0x00])
            .holding(Field::Predicted, 6, &[0x11, 0x22, 0xBB, 0x00])
            .starting(3),
    );
    let late = writing(by_tape(Call::TapeWrite, &none, &cutting, 3), B.0, &B.1);
    all.push(trial("tape 00 80 40, a write after the cut", late, BAD_TAPE).starting(3));

    let flushing = [0x80, 0x80, 0x40];
    let first = writing(by_tape(Call::TapeWrite, &none, &flushing, 0), A.0, &A.1);
    all.push(
        trial("tape 80 80 40, A", first, DONE)
            .holding(Field::Predicted, 6, &[0x11, 0x22, 0x33, 0x44])
            .starting(0),
    );
    let second = writing(by_tape(Call::TapeWrite, &one, &flushing, 0), B.0, &B.1);
    all.push(
        trial("tape 80 80 40, B", second, DONE)
            .holding(Field::Predicted, 6, &[0x11, 0xAA, 0xBB, 0x44])
            .starting(0),
    );
    let cut = by_tape(Call::TapeCut, &both, &flushing, 0);
    all.push(trial("tape 80 80 40, cut", cut, OTHER_ENDING).starting(0));
    let flush = by_tape(Call::TapeFlush, &both, &flushing, 0);
    all.push(
        trial("tape 80 80 40, flush", flush, DONE)
            .holding(Field::Image, 6, &[0x11, 0xAA, 0xBB, 0x44])
            .holding(Field::Predicted, 6, &[0x11, 0xAA, 0xBB, 0x44])
            .starting(3),
    );
}

fn gates(all: &mut Vec<Trial>) {
    for call in [Call::Judge, Call::Gate] {
        let calm = outstanding(call, 16, &[]);
        let with_a = outstanding(call, 16, &[(A.0, &A.1)]);
        let name = |what: &str| format!("{}: {what}", call.name());
        all.push(
            trial(&name("A and B have 4 points"), gate(call, &with_a, &ALWAYS, B.0, &B.1), DONE)
                .reports(4)
                .holding(Field::Work, 6, &[0x11, 0xAA, 0xBB, 0x44]),
        );
        let split = gate(call, &calm, &SEVEN_IS_EIGHT, 7, &[0xAA, 0xAA]);
        all.push(trial(&name("7 = 8, AA AA at 7"), split, DENIED).reports(1).holding(
            Field::Work,
            7,
            &[0xAA, 0x00],
        ));
        let whole = gate(call, &calm, &EIGHT_IS_NINE, 8, &[0xAA, 0xAA]);
        all.push(trial(&name("8 = 9, AA AA at 8"), whole, DONE).reports(1).holding(
            Field::Work,
            8,
            &[0xAA, 0xAA],
        ));
        for addr in [0, 8] {
            let alone = gate(call, &calm, &NOUGHT_OR_EIGHT_IS_0, addr, &[1]);
            all.push(trial(&name("0 or 8 is 0, one changes"), alone, DONE).reports(1));
        }
        let changed = outstanding(call, 16, &[(0, &[1])]);
        let other = gate(call, &changed, &NOUGHT_OR_EIGHT_IS_0, 8, &[1]);
        all.push(trial(&name("0 or 8 is 0, both change"), other, DENIED).reports(3));
    }
}

fn chunk_counts(all: &mut Vec<Trial>) {
    let nothing: [(u64, &[u8]); 1] = [(0, &[])];
    let tables: [(usize, &[u8], u64); 12] = [
        (0, &[], DONE),
        (0, &[0x00], BAD_ROWS),
        (1, &[0x80], DONE),
        (1, &[0x40], BAD_ROWS),
        (1, &[], BAD_ROWS),
        (8, &[0x80], DONE),
        (8, &[0x40], BAD_ROWS),
        (9, &[0xC0], DONE),
        (9, &[0x20], BAD_ROWS),
        (64, &[0xFF], DONE),
        (65, &[0xFF, 0x80], DONE),
        (65, &[0xFF, 0x40], BAD_ROWS),
    ];
    for (length, rows, number) in tables {
        let name = format!("K at {length}, row {rows:02X?}");
        let case = cut(&nothing, length, rows);
        let tried = trial(&name, case, number);
        all.push(if number == DONE { tried.reports(0) } else { tried });
    }
}

fn limits(all: &mut Vec<Trial>) {
    let long = |call, writes: &[(u64, &[u8])]| outstanding(call, 4096, writes);
    let put = |addr, data: &[u8]| writing(long(Call::Write, &[]), addr, data);
    all.push(trial("addr 4096, 0 bytes", put(4096, &[]), DONE));
    all.push(trial("addr 4096, 1 byte", put(4096, &[1]), OUTSIDE));
    all.push(trial("addr 4097, 0 bytes", put(4097, &[]), OUTSIDE));
    all.push(trial("addr 2^64-1, 2 bytes", put(u64::MAX, &[1, 2]), OUTSIDE));

    let most: Vec<(u64, &[u8])> = (0..32).map(|at| (at, &[1u8][..])).collect();
    for call in [Call::Write, Call::TapeWrite] {
        let with_tape = |mut case: Case| {
            if call == Call::TapeWrite {
                case.tape = vec![0; 1 + 40 * 64];
            }
            case
        };
        let last = writing(with_tape(long(call, &most[..31])), 40, &[1]);
        all.push(trial("the 32nd write", last, DONE));
        let over = writing(with_tape(long(call, &most)), 40, &[1]);
        all.push(trial("the 33rd write", over, TOO_MANY_WRITES));
        let full = [7u8; 1000];
        let brimming = writing(with_tape(long(call, &[(0, &full)])), 40, &[1; 24]);
        all.push(trial("byte 1024", brimming, DONE));
        let over = writing(with_tape(long(call, &[(0, &full)])), 40, &[1; 25]);
        all.push(trial("byte 1025", over, TOO_MANY_BYTES));
    }
    for call in [Call::Judge, Call::Gate] {
        let calm = long(call, &[]);
        let sixteen = gate(call, &calm, &ALWAYS, 0, &[9; 128]);
        all.push(trial("128 bytes at 0", sixteen, DONE).reports(16).holding(
            Field::Work,
            120,
            &[9; 8],
        ));
        let seventeen = gate(call, &calm, &ALWAYS, 1, &[9; 128]);
        all.push(trial("128 bytes at 1", seventeen, TOO_MANY_POINTS));
        let over = gate(call, &long(call, &most), &ALWAYS, 1, &[9]);
        all.push(trial("the 33rd write at the gate", over, TOO_MANY_WRITES));
        let over = gate(call, &long(call, &[(0, &[7; 1000])]), &ALWAYS, 1, &[9; 25]);
        all.push(trial("byte 1025 at the gate", over, TOO_MANY_BYTES));
    }
}

fn example(all: &mut Vec<Trial>) {
    let setup = |addr| {
        let mut case = Case::new(Call::Setup);
        case.image = vec![1; 16];
        case.addr = addr;
        case.val0 = 0x55;
        case
    };
    all.push(trial("setup", setup(3), DONE).holding(Field::Image, 2, &[1, 0x55, 1]));
    all.push(trial("setup at 16", setup(16), OUTSIDE));

    let run = |byte, rounds| {
        let mut case = Case::new(Call::Run);
        case.image = vec![1; 16];
        case.image[3] = byte;
        case.log = vec![0xCC; LOG_BYTES];
        case.work = vec![0xEE; 16];
        case.addr = 3;
        case.val0 = 0x55;
        case.val1 = 0x66;
        case.rounds = rounds;
        case
    };
    all.push(
        trial("run 1 round", run(0x66, 1), DONE)
            .holding(Field::Image, 2, &[1, 0x55, 1])
            .holding(Field::Log, 0, &[0x66, 0x55, 0xCC])
            .holding(Field::Work, 2, &[1, 0x55, 1]),
    );
    all.push(
        trial("run 0 rounds", run(0x66, 0), DONE)
            .holding(Field::Image, 2, &[1, 0x66, 1])
            .holding(Field::Log, 0, &[0xCC; 4])
            .holding(Field::Work, 0, &[0xEE; 16]),
    );
    all.push(trial("run 1000 rounds", run(0x55, 1000), DONE).holding(Field::Image, 3, &[0x55]));
    all.push(trial("run 1001 rounds", run(0x01, 1001), TOO_MANY_ROUNDS));
    all.push(trial("run on another byte", run(0x01, 1), IMAGE_BREAKS_SHEET));
}
