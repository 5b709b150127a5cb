//! Short inputs, all of them.

use crate::case::{Call, Case, Field};
use crate::referee::{Difference, Referee};
use crate::{LOG_BYTES, STATE_WORDS};

const ALWAYS: [u8; 2] = [0x18, 0x00];
const SEVEN_IS_EIGHT: [u8; 5] = [0x14, 0x00, 0x1C, 0x00, 0x20];
const BYTE_0_AT_MOST_2_OR_BYTE_8_IS_0: [u8; 10] =
    [0x1C, 0x20, 0x00, 0x00, 0x00, 0x08, 0x00, 0x08, 0x00, 0x00];

type Logged = (u64, Vec<u8>);
type Outcome = Result<(), Box<Difference>>;

/// Byte strings of two and of three bytes are all tried, or every so many of them.
#[derive(Clone, Copy)]
pub struct Extent {
    pub step_of_two: usize,
    pub step_of_three: usize,
}

impl Extent {
    pub const FULL: Extent = Extent { step_of_two: 1, step_of_three: 1 };
    /// For a build without optimisation.
    pub const SAMPLE: Extent = Extent { step_of_two: 43, step_of_three: 4099 };
}

/// Runs every family for the calls named.
pub fn exhaustive(referee: &mut Referee, calls: &[Call], extent: Extent) -> Outcome {
    for call in calls {
        match call {
            Call::Open => sheets(referee, extent)?,
            Call::Cut => row_tables(referee, extent)?,
            Call::TapeWrite | Call::TapeFlush | Call::TapeCut => tapes(referee, *call, extent)?,
            Call::Judge | Call::Gate => small_gates(referee, *call)?,
            Call::Setup => setups(referee)?,
            Call::Run => runs(referee)?,
            Call::Write | Call::Read | Call::Flush => {}
        }
        places(referee, *call)?;
        buffer_lengths(referee, *call)?;
    }
    Ok(())
}

/// A case on an image of 1, 2, 3 and so on, good in every shape.
fn outstanding(call: Call, length: usize, writes: &[Logged]) -> Case {
    let mut case = Case::new(call);
    case.image = (0..length).map(|at| at as u8 + 1).collect();
    if call.takes(Field::State) {
        case.state.push(writes.len() as u64);
        for (addr, data) in writes {
            case.state.extend([*addr, data.len() as u64]);
        }
        case.state.resize(STATE_WORDS, 0x5151);
    }
    if call.takes(Field::Log) {
        for (_, data) in writes {
            case.log.extend(data);
        }
        case.log.resize(LOG_BYTES, 0x99);
    }
    if call.takes(Field::Work) {
        case.work = vec![0xEE; length];
    }
    if call.takes(Field::Predicted) {
        case.predicted = vec![0xEE; length];
    }
    if call.takes(Field::Sheet) {
        case.sheet = ALWAYS.to_vec();
    }
    let row_bytes = length.div_ceil(64);
    if call.takes(Field::Rows) {
        case.rows = vec![0; writes.len() * row_bytes];
    }
    if call.takes(Field::Tape) {
        case.tape = vec![0; 1 + (writes.len() + 1) * row_bytes];
        case.tape[0] = if call == Call::TapeFlush { 0x80 } else { 0x00 };
    }
    case
}

fn marked(addr: usize, len: usize, tag: u8) -> Logged {
    (addr as u64, (0..len).map(|at| tag.wrapping_add(at as u8)).collect())
}

/// The byte strings of `len` bytes, at most 3, from number 0 on.
fn strings(len: usize, extent: Extent) -> impl Iterator<Item = Vec<u8>> {
    let step = match len {
        0 | 1 => 1,
        2 => extent.step_of_two,
        _ => extent.step_of_three,
    };
    (0..1usize << (8 * len))
        .step_by(step)
        .map(move |number| number.to_be_bytes()[8 - len..].to_vec())
}

fn sheets(referee: &mut Referee, extent: Extent) -> Outcome {
    let mut case = outstanding(Call::Open, 1, &[]);
    for len in 0..=3 {
        for sheet in strings(len, extent) {
            case.sheet = sheet;
            referee.compare(&case)?;
        }
    }
    Ok(())
}

/// All tables of up to two bytes on logs of up to two writes.
fn row_tables(referee: &mut Referee, extent: Extent) -> Outcome {
    for length in [0, 1, 8, 9, 16, 63, 64, 65] {
        let all = marked(0, length, 0x20);
        let tail = marked(length / 2, length - length / 2, 0x60);
        for writes in [vec![], vec![tail.clone()], vec![all, tail]] {
            let mut case = outstanding(Call::Cut, length, &writes);
            for len in 0..=2 {
                for rows in strings(len, extent) {
                    case.rows = rows;
                    referee.compare(&case)?;
                }
            }
        }
    }
    Ok(())
}

/// All tapes of up to two bytes and some of three, at every start.
fn tapes(referee: &mut Referee, call: Call, extent: Extent) -> Outcome {
    for length in [0, 9] {
        for writes in [vec![], vec![marked(0, length, 0x20)]] {
            let mut case = outstanding(call, length, &writes);
            case.addr = length as u64 / 2;
            case.data = if call == Call::TapeWrite { vec![0x77; length / 2] } else { vec![] };
            for len in 0..=2 {
                for tape in strings(len, extent) {
                    case.tape = tape;
                    for start in [0, 1, 2, 3, u64::MAX] {
                        case.start = start;
                        referee.compare(&case)?;
                    }
                }
            }
        }
    }
    for writes in [vec![], vec![marked(3, 60, 0x20)]] {
        let mut case = outstanding(call, 65, &writes);
        case.data = if call == Call::TapeWrite { vec![0x77; 65] } else { vec![] };
        for header in [0x00, 0x80, 0x01] {
            for rows in strings(2, extent) {
                case.tape = vec![header];
                case.tape.extend(rows);
                referee.compare(&case)?;
            }
        }
    }
    Ok(())
}

/// Three writes from every small place, the last one at the gate.
fn small_gates(referee: &mut Referee, call: Call) -> Outcome {
    let length = 9;
    let mut spots = Vec::new();
    for addr in [0, 6, 7, 8, 9] {
        spots.extend((0..=length - addr).map(|len| (addr, len)));
    }
    let sheets: [&[u8]; 2] = [&SEVEN_IS_EIGHT, &BYTE_0_AT_MOST_2_OR_BYTE_8_IS_0];
    for sheet in sheets {
        for first in &spots {
            for second in &spots {
                let writes = [marked(first.0, first.1, 0x01), marked(second.0, second.1, 0x00)];
                let mut case = outstanding(call, length, &writes);
                case.image = vec![0; length];
                case.sheet = sheet.to_vec();
                for new in &spots {
                    (case.addr, case.data) = marked(new.0, new.1, 0x02);
                    referee.compare(&case)?;
                }
            }
        }
    }
    Ok(())
}

/// Every place and length in and just outside short images.
fn places(referee: &mut Referee, call: Call) -> Outcome {
    if !call.takes(Field::Addr) || call == Call::Setup || call == Call::Run {
        return Ok(());
    }
    for length in [0, 1, 2, 7, 8, 9, 10, 16, 17] {
        for writes in [vec![], vec![marked(0, length, 0x40)]] {
            let mut case = outstanding(call, length, &writes);
            for addr in 0..length + 3 {
                for len in 0..length + 3 {
                    case.addr = addr as u64;
                    case.len = len as u64;
                    case.data = if call == Call::Read { vec![] } else { vec![0x80; len] };
                    referee.compare(&case)?;
                }
            }
        }
    }
    Ok(())
}

/// Every buffer at every length near the right one, the others good.
fn buffer_lengths(referee: &mut Referee, call: Call) -> Outcome {
    for length in [0, 1, 16, 65] {
        let writes = [marked(0, length, 0x40), marked(length, 0, 0)];
        let good = outstanding(call, length, &writes);
        if call.takes(Field::State) {
            for words in 0..2 * STATE_WORDS {
                let mut case = good.clone();
                case.state.resize(words, 0);
                referee.compare(&case)?;
            }
            for count in (0..2 * STATE_WORDS as u64).chain([u64::MAX, 1 << 32]) {
                let mut case = good.clone();
                case.state[1..].fill(0);
                case.state[0] = count;
                referee.compare(&case)?;
            }
        }
        for field in call.fields() {
            let Some(right) = good.bytes(*field).map(Vec::len) else {
                continue;
            };
            let near = right.saturating_sub(3)..right + 4;
            for len in near.chain([0, 1023, 1024, 1025, 4095, 4096, 4097]) {
                let mut case = good.clone();
                case.bytes_mut(*field).expect("a buffer, as above").resize(len, 0);
                referee.compare(&case)?;
            }
        }
    }
    Ok(())
}

fn setups(referee: &mut Referee) -> Outcome {
    for length in 0..=10 {
        for addr in (0..=length as u64 + 1).chain([u64::MAX]) {
            for val0 in 0..=255 {
                let mut case = outstanding(Call::Setup, length, &[]);
                case.addr = addr;
                case.val0 = val0;
                referee.compare(&case)?;
            }
        }
    }
    Ok(())
}

fn runs(referee: &mut Referee) -> Outcome {
    for length in 0..=10 {
        for addr in (0..=length as u64 + 1).chain([u64::MAX]) {
            for values in 0..16 {
                for rounds in [0, 1, 2, 1001, u64::MAX] {
                    let mut case = outstanding(Call::Run, length, &[]);
                    case.addr = addr;
                    case.val0 = 1 + (values & 3);
                    case.val1 = 1 + (values >> 2);
                    case.rounds = rounds;
                    referee.compare(&case)?;
                }
            }
        }
    }
    for rounds in [998, 999, 1000, 1001] {
        let mut case = outstanding(Call::Run, 9, &[]);
        case.addr = 8;
        case.val0 = 9;
        case.rounds = rounds;
        referee.compare(&case)?;
    }
    Ok(())
}
