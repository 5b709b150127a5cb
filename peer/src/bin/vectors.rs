//! Prints a fixed sample of the oracle's answers, for other programs to replay.
//!
//!     vectors [--plain]
//!
//! One call to a line; a line that starts with `#` is a remark. First come document 01's
//! trials, then for each call and each number that it can give some more lines.
//!
//! A line is
//!
//!     CALL FIELD=VALUE .. => number=N [report=VALUE] [FIELD=VALUE ..]
//!
//! - Before `=>` stand all arguments, in the order of the C function. `report` is not among
//!   them: lend it with any content.
//! - `number` is document 01's number, in decimal. `report` stands there exactly if the call
//!   reports n, m or kept; otherwise what was lent for it stays.
//! - After them stands each lent buffer (and `start`) that the call changed, with its whole
//!   content afterwards, among state, image, log, start, work, predicted in this order. What
//!   is not named is as before.
//! - Every VALUE is hexadecimal without a prefix. `addr`, `len`, `start`, `rounds`, `val0`,
//!   `val1` and `report` are numbers.
//! - `state` is its words with dots between them; `W*N` is N times the word W, N in decimal.
//! - The other buffers are byte strings: parts with dots between them, each of them either
//!   pairs of digits or `BB*N`, N times the byte BB, N in decimal. `-` is the empty string.
//!
//! With `--plain` no repeats are used, so that a byte string is digits alone.

use peer::case::{Call, Case};
use peer::desk::Oracle;
use peer::random;
use peer::rng::Rng;
use peer::trials::trials;

const SEED: u64 = 0x5EED;
const LINES_FOR_EACH: usize = 5;
/// Lines longer than the first are passed over for a while, longer than the second always.
const SHORT_LINE: usize = 700;
const LONG_LINE: usize = 6000;
const PATIENCE: usize = 50;
/// More than this many rounds are left to the trials.
const MOST_ROUNDS: u64 = 3;

fn print(case: &Case, brief: bool) -> u64 {
    let mut after = case.clone();
    let number = after.put_to(&Oracle);
    println!("{} {}", case.line(brief), case.outcome(number, &after, brief));
    number
}

fn main() {
    let brief = !std::env::args().skip(1).any(|argument| argument == "--plain");
    println!("# Answers of the oracle; the format is told in peer/src/bin/vectors.rs.");
    for trial in trials() {
        println!("# {}", trial.name);
        print(&trial.case, brief);
    }
    println!("# A sample for each call and each number.");
    let mut rng = Rng::new(SEED);
    for call in Call::ALL {
        for number in call.numbers() {
            sample(&mut rng, call, *number, brief);
        }
    }
}

fn sample(rng: &mut Rng, call: Call, wanted: u64, brief: bool) {
    let (mut lines, mut passed_over) = (0, 0);
    while lines < LINES_FOR_EACH {
        let case = random::case(rng, call);
        if (case.rounds > MOST_ROUNDS && wanted == 0) || case.clone().put_to(&Oracle) != wanted {
            continue;
        }
        // The last line of a sample may be a long one in any event.
        let usual = if lines + 1 == LINES_FOR_EACH { LONG_LINE } else { SHORT_LINE };
        let longest = if passed_over < PATIENCE { usual } else { LONG_LINE };
        if case.line(true).len() <= longest {
            lines += 1;
            print(&case, brief);
        } else {
            passed_over += 1;
        }
    }
}
