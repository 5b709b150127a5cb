//! Times the proved library's C functions beside `quick.rs`, in one run, and prints a
//! Markdown table: the time for a call of each, and the library's over Rust's.
//!
//!     bench [--runs N]
//!
//! Each figure is the median of N runs (11 unless said otherwise), in processor time, which
//! other work beside the benchmark disturbs least. The two desks take turns, so that a slow
//! moment falls on both. Before anything is timed, each is compared with the
//! oracle on the same case.

use peer::capi::Linked;
use peer::case::{Call, Case};
use peer::desk::Desk;
use peer::quick::Quick;
use peer::referee::Referee;
use peer::sheet::{Rule, write_sheet};
use peer::{LOG_BYTES, STATE_WORDS};
use std::hint::black_box;
use std::process::ExitCode;
use std::time::Duration;

/// A run is made long enough for the clock.
const SHORTEST_RUN: Duration = Duration::from_millis(15);
const USUAL_RUNS: usize = 11;

struct Timed {
    what: String,
    case: Case,
}

/// A case on zeros, good in every shape.
fn outstanding(call: Call, length: usize, writes: &[(usize, Vec<u8>)]) -> Case {
    let mut case = Case::new(call);
    case.image = vec![0; length];
    case.state.push(writes.len() as u64);
    for (addr, data) in writes {
        case.state.extend([*addr as u64, data.len() as u64]);
        case.log.extend(data);
    }
    case.state.resize(STATE_WORDS, 0);
    case.log.resize(LOG_BYTES, 0);
    case.work = vec![0; length];
    case.predicted = vec![0; length];
    case
}

fn is(addr: usize, low: u8, high: u8) -> Rule {
    Rule::Range { addr: addr as u16, low, high }
}

/// Sheets over 16 places, each of which a write changes from 0 to 1.
fn sheets(places: &[usize]) -> Vec<(&'static str, Rule)> {
    let every = |low, high| places.iter().map(|place| is(*place, low, high)).collect();
    let pairs = places
        .chunks(2)
        .map(|pair| Rule::Any(vec![is(pair[0], 0, 0), is(pair[0], 1, 1), is(pair[1], 0, 1)]));
    vec![
        ("admitted, `18 00`", Rule::All(vec![])),
        ("admitted, one clause", is(places[0], 0, 1)),
        ("admitted, all of 16 clauses", Rule::All(every(0, 1))),
        ("admitted, all of 8 groups of 3", Rule::All(pairs.collect())),
        ("denied at the last choice, any of 16", Rule::Any(every(0, 0))),
        ("denied half way, one clause", is(places[15], 0, 0)),
    ]
}

/// Verdicts at 16 points: one write over 16 chunks, and 16 writes of one byte.
fn verdicts(all: &mut Vec<Timed>, length: usize) {
    let adjacent: Vec<usize> = (0..16).map(|chunk| 8 * chunk).collect();
    for (name, rule) in sheets(&adjacent) {
        let mut case = outstanding(Call::Gate, length, &[]);
        case.sheet = write_sheet(&rule);
        case.data = vec![1; 128];
        all.push(Timed { what: format!("gate, 1 write of 128 bytes, {name}"), case });
    }
    let spread: Vec<usize> = (0..16).map(|index| index * (length / 16)).collect();
    for (name, rule) in sheets(&spread) {
        let writes: Vec<(usize, Vec<u8>)> =
            spread[..15].iter().map(|place| (*place, vec![1])).collect();
        let mut case = outstanding(Call::Gate, length, &writes);
        case.sheet = write_sheet(&rule);
        case.addr = spread[15] as u64;
        case.data = vec![1];
        all.push(Timed { what: format!("gate, 16 writes of 1 byte, {name}"), case });
    }
}

/// The log's calls and those by tape over one log.
fn log_calls(all: &mut Vec<Timed>, what: &str, length: usize, writes: &[(usize, Vec<u8>)]) {
    let row = |bits: u8| {
        let mut row = vec![bits; length.div_ceil(64)];
        if let (Some(last), used @ 1..) = (row.last_mut(), length.div_ceil(8) % 8) {
            *last &= !(0xFF >> used);
        }
        row
    };
    let rows = |bits: u8| row(bits).repeat(writes.len());
    let tape = |header: u8, bits: u8| [vec![header], rows(bits)].concat();
    let mut add =
        |name: &str, case: Case| all.push(Timed { what: format!("{name}, {what}"), case });
    let mut read = outstanding(Call::Read, length, writes);
    (read.addr, read.len) = (1, length as u64 / 2);
    add("read", read);
    add("flush", outstanding(Call::Flush, length, writes));
    for (kept, bits) in [("none", 0x00), ("every other", 0xAA), ("all", 0xFF)] {
        let mut cut = outstanding(Call::Cut, length, writes);
        cut.rows = rows(bits);
        add(&format!("cut, {kept} kept"), cut);
    }
    let mut tape_flush = outstanding(Call::TapeFlush, length, writes);
    tape_flush.tape = tape(0x80, 0xAA);
    add("tape flush", tape_flush);
    let mut tape_cut = outstanding(Call::TapeCut, length, writes);
    tape_cut.tape = tape(0x00, 0xAA);
    add("tape cut", tape_cut);
}

/// A full log of 32 writes of 32 bytes, all crossing chunk edges, and a desk's small table.
fn region_calls(all: &mut Vec<Timed>) {
    let full: Vec<(usize, Vec<u8>)> =
        (0..32).map(|index| (index * 120 + 5, vec![index as u8 + 1; 32])).collect();
    log_calls(all, "32 writes of 32 bytes", 4096, &full);
    log_calls(all, "2 writes of 4 bytes", 16, &[(5, vec![1; 4]), (11, vec![2; 4])]);
    let mut open = outstanding(Call::Open, 4096, &[]);
    let clauses = |count: usize| (0..count).map(|place| is(60 * place, 0, 9)).collect();
    open.sheet = write_sheet(&Rule::All(vec![Rule::All(clauses(63)), Rule::All(clauses(56))]));
    all.push(Timed { what: "open, 119 clauses".to_string(), case: open });
    let mut gate = outstanding(Call::Gate, 16, &[(5, vec![1; 4])]);
    gate.sheet = write_sheet(&is(7, 0, 9));
    (gate.addr, gate.data) = (11, vec![2; 4]);
    all.push(Timed {
        what: "gate, 2 writes of 4 bytes, admitted, one clause".to_string(),
        case: gate,
    });
}

unsafe extern "C" {
    /// C's `clock`, in microseconds on every POSIX system.
    fn clock() -> std::ffi::c_long;
}

fn processor_time() -> Duration {
    // SAFETY: the function takes nothing.
    Duration::from_micros(unsafe { clock() } as u64)
}

/// Nanoseconds for one of `times` calls. A call that empties the log finds it full again,
/// and one by tape finds its epoch again; the images settle after the first call.
fn time(desk: &dyn Desk, case: &Case, times: u64) -> f64 {
    let mut lent = case.clone();
    let (count, start) = (case.state[0], case.start);
    let began = processor_time();
    for _ in 0..times {
        lent.state[0] = count;
        lent.start = start;
        black_box(black_box(&mut lent).put_to(desk));
    }
    (processor_time() - began).as_nanos() as f64 / times as f64
}

/// Nanoseconds as microseconds or milliseconds.
fn shown(nanoseconds: f64) -> String {
    if nanoseconds < 100_000.0 {
        format!("{:.3} µs", nanoseconds / 1e3)
    } else {
        format!("{:.2} ms", nanoseconds / 1e6)
    }
}

fn median(mut figures: Vec<f64>) -> f64 {
    figures.sort_by(f64::total_cmp);
    figures[figures.len() / 2]
}

fn enough_times(desk: &dyn Desk, case: &Case) -> u64 {
    let once = time(desk, case, 1).max(1.0);
    let rough = time(desk, case, (1_000_000.0 / once).clamp(1.0, 10_000.0) as u64).max(1.0);
    (SHORTEST_RUN.as_nanos() as f64 / rough).ceil().max(1.0) as u64
}

fn main() -> ExitCode {
    let arguments: Vec<String> = std::env::args().skip(1).collect();
    let runs = match arguments.as_slice() {
        [] => Some(USUAL_RUNS),
        [option, value] if option == "--runs" => value.parse().ok().filter(|runs| *runs > 0),
        _ => None,
    };
    let Some(runs) = runs else {
        eprintln!("usage: bench [--runs N]");
        return ExitCode::FAILURE;
    };
    let mut all = Vec::new();
    for length in [128, 4096] {
        verdicts(&mut all, length);
    }
    region_calls(&mut all);
    let library = Linked { null_for_empty: false };
    println!("Median of {runs} runs, processor time for a call.\n");
    println!("| call | L | library | Rust | library / Rust |");
    println!("|---|---:|---:|---:|---:|");
    for Timed { what, case } in all {
        for desk in [&library as &dyn Desk, &Quick] {
            if let Err(difference) = Referee::new(vec![desk]).compare(&case) {
                eprintln!("{difference}");
                return ExitCode::FAILURE;
            }
        }
        let times_library = enough_times(&library, &case);
        let times_rust = enough_times(&Quick, &case);
        let (mut of_library, mut of_rust) = (Vec::new(), Vec::new());
        for _ in 0..runs {
            of_library.push(time(&library, &case, times_library));
            of_rust.push(time(&Quick, &case, times_rust));
        }
        let (of_library, of_rust) = (median(of_library), median(of_rust));
        println!(
            "| {what} | {} | {} | {} | {:.2} |",
            case.image.len(),
            shown(of_library),
            shown(of_rust),
            of_library / of_rust
        );
    }
    ExitCode::SUCCESS
}
