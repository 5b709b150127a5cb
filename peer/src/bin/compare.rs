//! Compares the proved library with the oracle, through the library's C functions.
//!
//!     compare [--seed S] [--calls N] [--only CALL]
//!     compare --replay FILE
//!
//! A run prints its seed first and is settled by it. It ends at the first difference,
//! which is printed as a line that `--replay` takes (FILE may be `-` for the standard
//! input; lines of `vectors` are taken too). The tallies come last: a row for each call
//! and a column for each number. A tally of zero that document 01 says can occur fails
//! the run just as a difference does. So does a call that brings the program down or does
//! not come back within a minute; its case is printed too.

use peer::STATE_WORDS;
use peer::campaign::{Plan, campaign};
use peer::capi::Linked;
use peer::case::{Call, Case};
use peer::exhaustive::Extent;
use peer::referee::Referee;
use std::io::Read;
use std::process::ExitCode;
use std::time::{Instant, SystemTime, UNIX_EPOCH};

const USUAL_CALLS: u64 = 10_000_000;

enum Task {
    Run { seed: Option<u64>, calls: u64, only: Option<Call> },
    Replay { file: String },
}

fn task(mut arguments: impl Iterator<Item = String>) -> Result<Task, String> {
    let (mut seed, mut calls, mut only, mut replay) = (None, USUAL_CALLS, None, None);
    while let Some(option) = arguments.next() {
        let value = arguments.next().ok_or_else(|| format!("{option} wants a value"))?;
        let number = || value.parse::<u64>().map_err(|_| format!("{value} is no number"));
        match option.as_str() {
            "--seed" => seed = Some(number()?),
            "--calls" => calls = number()?,
            "--only" => {
                only = Some(Call::named(&value).ok_or_else(|| format!("no call {value}"))?);
            }
            "--replay" => replay = Some(value),
            _ => return Err(format!("no option {option}")),
        }
    }
    Ok(match replay {
        Some(file) => Task::Replay { file },
        None => Task::Run { seed, calls, only },
    })
}

/// Tells the case when the library brings the program down or does not come back.
#[cfg(unix)]
mod watch {
    use peer::referee::UNDER_WAY;
    use std::sync::atomic::Ordering;

    const SIGILL: i32 = 4;
    const SIGABRT: i32 = 6;
    const SIGBUS: i32 = if cfg!(target_os = "linux") { 7 } else { 10 };
    const SIGFPE: i32 = 8;
    const SIGSEGV: i32 = 11;
    const SIGALRM: i32 = 14;
    const LONGEST_CALL_SECONDS: u32 = 60;

    unsafe extern "C" {
        fn signal(signal: i32, handler: extern "C" fn(i32)) -> usize;
        fn alarm(seconds: u32) -> u32;
        fn _exit(status: i32) -> !;
    }

    extern "C" fn tell(signal: i32) {
        // SAFETY: the pointer is set only while the case is borrowed for the call. Printing
        // allocates, which a handler should not do; the program is lost already.
        if let Some(case) = unsafe { UNDER_WAY.load(Ordering::Relaxed).as_ref() } {
            eprintln!("signal {signal} in a call of the library; the case:");
            eprintln!("{}", case.line(false));
        } else {
            eprintln!("signal {signal} outside the library");
        }
        // SAFETY: this ends the program.
        unsafe { _exit(1) }
    }

    pub fn start() {
        for number in [SIGILL, SIGABRT, SIGBUS, SIGFPE, SIGSEGV, SIGALRM] {
            // SAFETY: `tell` has the type of a signal handler.
            unsafe { signal(number, tell) };
        }
    }

    /// Begins the minute anew.
    pub fn going_on() {
        // SAFETY: the function takes any number.
        unsafe { alarm(LONGEST_CALL_SECONDS) };
    }
}

fn main() -> ExitCode {
    #[cfg(unix)]
    watch::start();
    let outcome = task(std::env::args().skip(1)).and_then(|task| match task {
        Task::Run { seed, calls, only } => run(seed, calls, only),
        Task::Replay { file } => replay(&file),
    });
    match outcome {
        Ok(()) => ExitCode::SUCCESS,
        Err(complaint) => {
            eprintln!("{complaint}");
            ExitCode::FAILURE
        }
    }
}

/// The library twice over: once with pointers to empty buffers, once with null.
const DESKS: [Linked; 2] = [Linked { null_for_empty: false }, Linked { null_for_empty: true }];

fn run(seed: Option<u64>, calls: u64, only: Option<Call>) -> Result<(), String> {
    let clock = || SystemTime::now().duration_since(UNIX_EPOCH).map_or(1, |now| now.as_secs());
    let plan = Plan { seed: seed.unwrap_or_else(clock), calls, only, extent: Extent::FULL };
    println!("seed {}", plan.seed);
    let words = Linked::state_words();
    if words != STATE_WORDS as u64 {
        return Err(format!("state_words gives {words}"));
    }
    let [pointing, null] = &DESKS;
    let mut referee = Referee::new(vec![pointing, null]);
    #[cfg(unix)]
    {
        referee.going_on = watch::going_on;
    }
    let started = Instant::now();
    let outcome = campaign(&mut referee, &plan, |part, referee| {
        let seconds = started.elapsed().as_secs_f64();
        println!("{part}: {} calls after {seconds:.1} s", referee.calls);
    });
    print!("{}", referee.table());
    outcome.map_err(|difference| difference.to_string())?;
    let never = referee.never_met(&plan.calls_named());
    if never.is_empty() {
        println!("{} calls, no difference", referee.calls);
        Ok(())
    } else {
        Err(never.join("\n"))
    }
}

fn replay(file: &str) -> Result<(), String> {
    let mut text = String::new();
    let read = match file {
        "-" => std::io::stdin().read_to_string(&mut text).map(drop),
        _ => std::fs::read_to_string(file).map(|content| text = content),
    };
    read.map_err(|error| format!("{file}: {error}"))?;
    let [pointing, null] = &DESKS;
    let mut referee = Referee::new(vec![pointing, null]);
    #[cfg(unix)]
    {
        referee.going_on = watch::going_on;
    }
    for (index, line) in text.lines().enumerate() {
        if line.is_empty() || line.starts_with('#') {
            continue;
        }
        let case = Case::parse(line).map_err(|error| format!("line {}: {error}", index + 1))?;
        let (number, after) =
            referee.compare(&case).map_err(|difference| difference.to_string())?;
        let outcome = case.outcome(number, &after, true);
        if let Some(at) = line.find("=>") {
            let stored = &line[at..];
            if stored != outcome && stored != case.outcome(number, &after, false) {
                return Err(format!("line {}: the oracle now says {outcome}", index + 1));
            }
        }
        println!("{} {outcome}", case.call.name());
    }
    println!("{} calls, no difference", referee.calls);
    Ok(())
}
