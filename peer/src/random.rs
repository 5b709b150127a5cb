//! Random cases around document 01's boundaries, and damaged copies of good ones.

use crate::case::{Call, Case, Field};
use crate::log::{self, Write, chunk_count, row_bytes};
use crate::rng::Rng;
use crate::sheet::{Rule, write_sheet};
use crate::{CHUNK, LOG_BYTES, MOST_WRITES, STATE_WORDS};

/// A case that is good for the most part, then perhaps damaged once or more. More
/// than one wound is what tells the order of the refusals.
pub fn case(rng: &mut Rng, call: Call) -> Case {
    let mut case = sound(rng, call);
    let wounds = match rng.below(20) {
        0..=11 => 0,
        12..=16 => 1,
        17..=18 => 2,
        _ => 3,
    };
    for _ in 0..wounds {
        damage(rng, &mut case);
    }
    case
}

/// A length of image, mostly small, with the edges well represented.
pub fn image_length(rng: &mut Rng) -> usize {
    match rng.below(100) {
        0..=59 => rng.pick(&[0, 1, 2, 7, 8, 9, 10, 15, 16, 17, 18, 24]),
        60..=84 => rng.pick(&[31, 32, 33, 40, 63, 64, 65, 72]),
        85..=93 => rng.pick(&[127, 128, 129, 130, 136, 200, 512, 513]),
        94..=97 => rng.below(300),
        _ => rng.pick(&[4088, 4095, 4096, 4097, 4104]),
    }
}

/// Bytes from a small alphabet for the most part, so that clauses are met by chance.
pub fn some_bytes(rng: &mut Rng, len: usize) -> Vec<u8> {
    match rng.below(8) {
        0 => vec![0; len],
        1..=4 => (0..len).map(|_| rng.byte() & 1).collect(),
        5..=6 => (0..len).map(|_| rng.byte() & 3).collect(),
        _ => (0..len).map(|_| rng.byte()).collect(),
    }
}

/// A write that fits an image of `length` bytes.
pub fn some_write(rng: &mut Rng, length: usize) -> Write {
    let addr = match rng.below(4) {
        0 => CHUNK * rng.below(chunk_count(length) + 1) + rng.below(3),
        _ => rng.below(length + 1) + 1,
    };
    let addr = addr.saturating_sub(1).min(length);
    let len = match rng.below(8) {
        0 => 0,
        1..=4 => rng.from_to(1, 4),
        5..=6 => rng.below(20),
        _ => rng.below(64),
    };
    let len = len.min(length - addr);
    Write { addr, data: some_bytes(rng, len) }
}

/// A log for the calls that do not judge.
fn some_log(rng: &mut Rng, length: usize) -> Vec<Write> {
    let count = match rng.below(20) {
        0..=3 => 0,
        4..=13 => rng.from_to(1, 3),
        14..=16 => rng.from_to(4, 10),
        17..=18 => rng.from_to(MOST_WRITES - 2, MOST_WRITES),
        _ => return brimming_log(rng, length),
    };
    let mut writes: Vec<Write> = (0..count).map(|_| some_write(rng, length)).collect();
    while log::data_bytes(&writes) > LOG_BYTES {
        writes.pop();
    }
    writes
}

/// A log whose data bytes come close to the budget, if the image is long enough.
fn brimming_log(rng: &mut Rng, length: usize) -> Vec<Write> {
    let wanted = rng.from_to(LOG_BYTES - 3, LOG_BYTES);
    let usual = wanted.div_ceil(rng.from_to(1, MOST_WRITES));
    let mut writes: Vec<Write> = Vec::new();
    let mut missing = wanted;
    while missing > 0 && writes.len() < MOST_WRITES {
        let len = usual.min(length).min(missing);
        let addr = rng.below(length - len + 1);
        writes.push(Write { addr, data: some_bytes(rng, len) });
        missing -= len;
    }
    writes
}

/// Writes with exactly `wanted` choice points together, where the image has chunks.
pub fn pointed_writes(rng: &mut Rng, length: usize, wanted: usize) -> Vec<Write> {
    let chunks = chunk_count(length);
    let mut writes = Vec::new();
    let mut missing = if chunks == 0 { 0 } else { wanted };
    while missing > 0 {
        if rng.one_in(8) && writes.len() < 8 {
            writes.push(Write { addr: rng.below(length + 1), data: Vec::new() });
            continue;
        }
        let wide = if rng.one_in(4) { missing } else { rng.from_to(1, 3) };
        let wide = wide.min(missing).min(chunks);
        let first = rng.below(chunks - wide + 1);
        let last = first + wide - 1;
        let end_of = |chunk: usize| length.min(CHUNK * (chunk + 1));
        let start = rng.from_to(CHUNK * first, end_of(first) - 1);
        let end = rng.from_to((CHUNK * last).max(start), end_of(last) - 1) + 1;
        writes.push(Write { addr: start, data: some_bytes(rng, end - start) });
        missing -= wide;
    }
    writes
}

/// How many points a gate case is to have. All choices are tried for an admitted
/// write, so the expensive ones are few.
fn wanted_points(rng: &mut Rng) -> usize {
    match rng.below(10_000) {
        0..=6499 => rng.below(4),
        6500..=8799 => rng.from_to(4, 6),
        8800..=9499 => rng.from_to(17, 24),
        9500..=9899 => rng.from_to(7, 8),
        9900..=9986 => rng.from_to(9, 10),
        9987..=9997 => rng.from_to(11, 13),
        _ => rng.from_to(14, 16),
    }
}

/// Log and new write for a gate case.
fn judged_writes(rng: &mut Rng, length: usize) -> (Vec<Write>, Write) {
    if rng.one_in(20) {
        let writes = if rng.one_in(3) { brimming_log(rng, length) } else { some_log(rng, length) };
        return (writes, some_write(rng, length));
    }
    let wanted = wanted_points(rng);
    let mut writes = pointed_writes(rng, length, wanted);
    if rng.one_in(10) {
        let crowd = rng.from_to(MOST_WRITES - 1, MOST_WRITES + 1);
        while writes.len() < crowd {
            let at = rng.below(writes.len() + 1);
            writes.insert(at, Write { addr: rng.below(length + 1), data: Vec::new() });
        }
    }
    let new =
        writes.pop().unwrap_or_else(|| Write { addr: rng.below(length + 1), data: Vec::new() });
    writes.truncate(MOST_WRITES);
    (writes, new)
}

/// A state for the writes, with anything behind the last record.
pub fn state_of(rng: &mut Rng, writes: &[Write]) -> Vec<u64> {
    let mut state = vec![writes.len() as u64];
    for write in writes {
        state.extend([write.addr as u64, write.data.len() as u64]);
    }
    let zeros = rng.one_in(2);
    while state.len() < STATE_WORDS {
        state.push(if zeros { 0 } else { rng.word() });
    }
    state
}

/// A log buffer for the writes, with anything behind their bytes.
pub fn log_of(rng: &mut Rng, writes: &[Write]) -> Vec<u8> {
    let mut log: Vec<u8> = writes.iter().flat_map(|write| write.data.clone()).collect();
    let filler = if rng.one_in(2) { 0 } else { rng.byte() };
    log.resize(LOG_BYTES, filler);
    log
}

/// Good rows for `count` writes.
pub fn row_table(rng: &mut Rng, count: usize, length: usize) -> Vec<u8> {
    let mut table = Vec::new();
    for _ in 0..count {
        let style = rng.below(4);
        for index in 0..row_bytes(length) {
            let bits = match style {
                0 => 0x00,
                1 => 0xFF,
                _ => rng.byte(),
            };
            let used = (chunk_count(length) - 8 * index).min(8);
            table.push(bits & (0xFF00u16 >> used) as u8);
        }
    }
    table
}

fn clause(rng: &mut Rng, image: &[u8], writes: &[Write]) -> Rule {
    let length = image.len();
    let address = |rng: &mut Rng| -> u16 {
        let addr = match rng.below(10) {
            0 => rng.pick(&[length, length + 1, 0xFFFF, 0x1000]),
            1..=4 if !writes.is_empty() => {
                let write = &writes[rng.below(writes.len())];
                write.addr + rng.below(write.data.len().max(1))
            }
            _ => rng.below(length.max(1)),
        };
        addr as u16
    };
    let addr = address(rng);
    if rng.one_in(4) {
        let near = rng.pick(&[0, 1, 8]);
        let second = if rng.one_in(2) { address(rng) } else { addr.wrapping_add(near) };
        return Rule::Same { first: addr, second };
    }
    let old = image.get(usize::from(addr)).copied().unwrap_or(0);
    let new = rng.byte() & 3;
    let (low, high) = match rng.below(20) {
        0..=3 => (0x00, 0xFF),
        4..=6 => (old, old),
        7..=15 => (old.min(new), old.max(new)),
        16..=18 => (rng.byte(), rng.byte()),
        _ => (old.saturating_add(1), old),
    };
    Rule::Range { addr, low, high }
}

fn group(rng: &mut Rng, members: Vec<Rule>) -> Rule {
    if rng.one_in(2) { Rule::All(members) } else { Rule::Any(members) }
}

fn some_rule(rng: &mut Rng, image: &[u8], writes: &[Write], levels: usize) -> Rule {
    if levels == 1 || rng.one_in(2) {
        return clause(rng, image, writes);
    }
    let count = match rng.below(12) {
        0 => 0,
        _ => rng.from_to(1, 4),
    };
    let members = (0..count).map(|_| some_rule(rng, image, writes, levels - 1)).collect();
    group(rng, members)
}

/// A rule of depth 7, 8 or 9.
fn deep_rule(rng: &mut Rng, image: &[u8], writes: &[Write]) -> Rule {
    let depth = rng.from_to(7, 9);
    let mut rule = if rng.one_in(2) { clause(rng, image, writes) } else { group(rng, Vec::new()) };
    for _ in 1..depth {
        let mut members = vec![rule];
        if rng.one_in(3) {
            let at = rng.below(2);
            members.insert(at, clause(rng, image, writes));
        }
        rule = group(rng, members);
    }
    rule
}

/// A group with as many members as its count can say, or one fewer.
fn wide_rule(rng: &mut Rng, image: &[u8], writes: &[Write]) -> Rule {
    let count = rng.from_to(62, 63);
    let members = (0..count).map(|_| clause(rng, image, writes)).collect();
    group(rng, members)
}

/// A sheet of exactly 511, 512 or 513 bytes.
fn long_sheet(rng: &mut Rng, image: &[u8], writes: &[Write]) -> Vec<u8> {
    let bytes = rng.from_to(511, 513);
    let mut clauses =
        |count: usize| -> Vec<Rule> { (0..count).map(|_| clause(rng, image, writes)).collect() };
    // Bits: 4 + 8 + (8 + 63 * 34) + (8 + 56 * 34) = 4074, and 8 for each empty group.
    let mut members = vec![Rule::Any(clauses(63)), Rule::Any(clauses(56))];
    for _ in 0..bytes - 510 {
        members.push(Rule::All(Vec::new()));
    }
    write_sheet(&Rule::All(members))
}

/// A sheet, mostly one that the image obeys.
pub fn some_sheet(rng: &mut Rng, image: &[u8], writes: &[Write]) -> Vec<u8> {
    match rng.below(100) {
        0..=3 => write_sheet(&deep_rule(rng, image, writes)),
        4..=5 => write_sheet(&wide_rule(rng, image, writes)),
        6..=7 => long_sheet(rng, image, writes),
        8..=15 => write_sheet(&Rule::All(Vec::new())),
        16 => write_sheet(&Rule::Any(Vec::new())),
        _ => {
            let tries = if rng.one_in(10) { 1 } else { 6 };
            let mut rule = some_rule(rng, image, writes, 4);
            for _ in 1..tries {
                if rule.holds(image) {
                    break;
                }
                rule = some_rule(rng, image, writes, 4);
            }
            write_sheet(&rule)
        }
    }
}

/// A case that is good in every shape, though a write may find no room or be denied.
fn sound(rng: &mut Rng, call: Call) -> Case {
    let mut case = Case::new(call);
    let length = image_length(rng);
    case.image = some_bytes(rng, length);
    let (writes, new) = match call {
        Call::Judge | Call::Gate => judged_writes(rng, length),
        _ => (some_log(rng, length), some_write(rng, length)),
    };
    if call.takes(Field::State) {
        case.state = state_of(rng, &writes);
    }
    if call.takes(Field::Log) {
        case.log = log_of(rng, &writes);
    }
    if call.takes(Field::Sheet) {
        let mut judged = writes.clone();
        judged.push(new.clone());
        case.sheet = some_sheet(rng, &case.image, &judged);
    }
    if call.takes(Field::Work) {
        case.work = some_bytes(rng, length);
    }
    if call.takes(Field::Predicted) {
        case.predicted = some_bytes(rng, length);
    }
    if call.takes(Field::Rows) {
        case.rows = row_table(rng, writes.len(), length);
    }
    if call.takes(Field::Tape) {
        let rows = writes.len() + usize::from(call == Call::TapeWrite);
        let usual = if call == Call::TapeFlush { 0x80 } else { 0x00 };
        let header = if rng.one_in(4) { rng.pick(&[0x00, 0x80]) } else { usual };
        case.start = rng.pick(&[0, 0, 1, 5]);
        case.tape = some_bytes(rng, case.start as usize);
        case.tape.push(header);
        case.tape.extend(row_table(rng, rows, length));
        let beyond = rng.pick(&[0, 0, 1, 9]);
        case.tape.extend(some_bytes(rng, beyond));
    }
    if call.takes(Field::Data) {
        case.addr = new.addr as u64;
        case.data = new.data;
    } else if call == Call::Read {
        case.addr = new.addr as u64;
        case.len = new.data.len() as u64;
    } else if call.takes(Field::Addr) {
        case.addr = rng.below(length.max(1)) as u64;
    }
    if call == Call::Setup || call == Call::Run {
        case.val0 = rng.byte();
        case.val1 = if rng.one_in(8) { case.val0 } else { rng.byte() };
    }
    if call == Call::Run {
        let value = if rng.one_in(2) { case.val0 } else { case.val1 };
        if let Some(byte) = case.image.get_mut(case.addr as usize) {
            *byte = value;
        }
        case.rounds = if rng.one_in(500) { rng.from_to(990, 1000) } else { rng.below(4) } as u64;
    }
    case
}

fn flip(rng: &mut Rng, bytes: &mut [u8]) {
    if !bytes.is_empty() {
        let at = rng.below(bytes.len());
        bytes[at] ^= 1 << rng.below(8);
    }
}

/// A length one off, or nothing, or a good deal more.
fn misfit(rng: &mut Rng, bytes: &mut Vec<u8>) {
    match rng.below(5) {
        0..=1 => {
            bytes.pop();
        }
        2..=3 => bytes.push(rng.pick(&[0x00, 0xFF])),
        _ => bytes.clear(),
    }
}

/// Numbers that make `addr + len` end just before, at or past `length`, or past 2^64.
fn edge(rng: &mut Rng, other: u64, length: usize) -> u64 {
    let length = length as u64;
    let choices = [
        length,
        length + 1,
        length.wrapping_sub(other),
        length.wrapping_sub(other).wrapping_add(1),
        length.wrapping_sub(other).wrapping_sub(1),
        u64::MAX,
        u64::MAX - 1,
        0u64.wrapping_sub(other),
        0u64.wrapping_sub(other).wrapping_add(1),
        0u64.wrapping_sub(other).wrapping_sub(1),
        1 << 63,
        1 << 32,
        1 << 16,
    ];
    rng.pick(&choices)
}

fn damage_state(rng: &mut Rng, state: &mut Vec<u64>, length: usize) {
    if state.len() != STATE_WORDS || rng.one_in(6) {
        let words = rng.pick(&[0, 1, STATE_WORDS - 1, STATE_WORDS + 1]);
        state.resize(words, 0);
        return;
    }
    let count = (state[0] as usize).min(MOST_WRITES);
    if count == 0 || rng.one_in(5) {
        state[0] = rng.pick(&[0, 1, 31, 32, 33, 34, u64::MAX, 1 << 32, count as u64 + 1]);
        return;
    }
    let at = 1 + 2 * rng.below(count);
    match rng.below(8) {
        0..=2 => state[at] = edge(rng, state[at + 1], length),
        3..=4 => state[at + 1] = edge(rng, state[at], length),
        5 => state[at + 1] = rng.pick(&[0, 1, 1023, 1024, 1025]),
        6 => state[at + 1] = state[at + 1].wrapping_add(1),
        _ => {
            let word = rng.below(STATE_WORDS);
            state[word] ^= 1 << rng.below(64);
        }
    }
}

fn damage_sheet(rng: &mut Rng, sheet: &mut Vec<u8>) {
    match rng.below(8) {
        0 => misfit(rng, sheet),
        1 => sheet.truncate(rng.below(sheet.len() + 1)),
        2 => sheet.push(0),
        3 => {
            if let Some(last) = sheet.last_mut() {
                *last |= 1 << rng.below(4);
            }
        }
        4 => {
            if let Some(first) = sheet.first_mut() {
                *first = first.wrapping_add(0x10);
            }
        }
        _ => flip(rng, sheet),
    }
}

/// One wound somewhere in what the call takes.
fn damage(rng: &mut Rng, case: &mut Case) {
    let fields = case.call.fields();
    let field = rng.pick(fields);
    let length = case.image.len();
    match field {
        Field::State => damage_state(rng, &mut case.state, length),
        Field::Sheet => damage_sheet(rng, &mut case.sheet),
        Field::Image => {
            let other = rng.pick(&[4097, length + 1, length.saturating_sub(1)]);
            case.image.resize(other, 0);
            // With the other images alike, the damage shows in the log or the rows alone.
            if rng.one_in(2) {
                for field in [Field::Work, Field::Predicted] {
                    if case.call.takes(field) {
                        case.bytes_mut(field).expect("an image").resize(other, 0);
                    }
                }
            }
        }
        Field::Log => {
            if rng.one_in(2) {
                misfit(rng, &mut case.log);
            } else {
                flip(rng, &mut case.log);
            }
        }
        Field::Work => misfit(rng, &mut case.work),
        Field::Predicted => misfit(rng, &mut case.predicted),
        Field::Rows => {
            if rng.one_in(2) {
                misfit(rng, &mut case.rows);
            } else {
                flip(rng, &mut case.rows);
            }
        }
        Field::Tape => match rng.below(6) {
            0 => misfit(rng, &mut case.tape),
            1 => case.tape.truncate(rng.below(case.tape.len() + 1)),
            2 => {
                let start = case.start as usize;
                let header = rng.pick(&[0x00, 0x80, 0x01, 0x81, 0xFF, 0x40]);
                if let Some(byte) = case.tape.get_mut(start) {
                    *byte = header;
                }
            }
            _ => flip(rng, &mut case.tape),
        },
        Field::Start => {
            let end = case.tape.len() as u64;
            let start = case.start;
            case.start = rng.pick(&[
                end,
                end + 1,
                end.wrapping_sub(1),
                start.wrapping_add(1),
                u64::MAX,
                u64::MAX - 1,
                1 << 32,
                1 << 63,
            ]);
        }
        Field::Addr => {
            let len = match case.call {
                Call::Read => case.len,
                Call::Setup | Call::Run => 1,
                _ => case.data.len() as u64,
            };
            case.addr = edge(rng, len, length);
        }
        Field::Len => case.len = edge(rng, case.addr, length),
        Field::Data => {
            let room = length.saturating_sub(case.addr as usize);
            let len = rng.pick(&[0, room, room + 1, LOG_BYTES, LOG_BYTES + 1, case.data.len() + 1]);
            case.data = some_bytes(rng, len);
        }
        Field::Val0 => case.val0 = rng.byte(),
        Field::Val1 => case.val1 = rng.byte(),
        Field::Rounds => case.rounds = rng.pick(&[1001, 1001, 1002, u64::MAX, 1 << 32, 0]),
        Field::Report => case.report = rng.word() | 1 << 63,
    }
}

/// A damaged copy, for calls that a session wants refused.
pub fn damaged(rng: &mut Rng, case: &Case) -> Case {
    let mut copy = case.clone();
    for _ in 0..rng.from_to(1, 2) {
        damage(rng, &mut copy);
    }
    copy
}
