//! Writes the stored sample: a Rattle program that puts two calls for each function to the
//! library, one that is done and one that the last of its refusals meets, and beside it what the
//! oracle answers and leaves behind.
//!
//!     sample CRATE
//!
//! CRATE/src gets a file for each kind of call, CRATE/stdout the answers. The sample is the
//! same each time; `rt ci` runs the program and compares.

use peer::case::{Call, Case, Field};
use peer::desk::Oracle;
use peer::random;
use peer::rng::Rng;
use std::fmt::Write as _;
use std::{env, fs, process};

const SEED: u64 = 0x5EED;
/// A case with few places to write out is taken first; after this many tries, one place more is
/// let through.
const PATIENCE: usize = 200;
const FEW_PLACES: usize = 24;
const MOST_ROUNDS: u64 = 3;
const MOST_LOG_BYTES: usize = 16;
/// A buffer of more zeros than these is written by its length.
const MOST_ZEROS: usize = 8;
const STATE_WORDS: usize = 65;
const LOG_BYTES: usize = 1024;

struct File {
    name: &'static str,
    head: &'static str,
    module: &'static str,
    calls: &'static [Call],
}

const FILES: [File; 4] = [
    File {
        name: "log_sample",
        head: "Plain write, read, flush and cut.",
        module: "log_calls",
        calls: &[Call::Write, Call::Read, Call::Flush, Call::Cut],
    },
    File {
        name: "gate_sample",
        head: "Opening, the judging call and the gate.",
        module: "gate_calls",
        calls: &[Call::Open, Call::Judge, Call::Gate],
    },
    File {
        name: "tape_sample",
        head: "Write, flush and cut by tape.",
        module: "tape_calls",
        calls: &[Call::TapeWrite, Call::TapeFlush, Call::TapeCut],
    },
    File {
        name: "example_sample",
        head: "The example application.",
        module: "example_calls",
        calls: &[Call::Setup, Call::Run],
    },
];

fn main() {
    let Some(home) = env::args().nth(1) else {
        eprintln!("sample: name the crate's directory");
        process::exit(2);
    };
    let mut rng = Rng::new(SEED);
    let mut answers = String::new();
    for file in &FILES {
        let source = program(&mut rng, file, &mut answers);
        put(&format!("{home}/src/{}.rt", file.name), &source);
    }
    put(&format!("{home}/stdout"), &answers);
}

fn put(path: &str, text: &str) {
    if let Err(why) = fs::write(path, text) {
        eprintln!("sample: {path}: {why}");
        process::exit(2);
    }
}

fn program(rng: &mut Rng, file: &File, answers: &mut String) -> String {
    let (mut functions, mut replay) = (String::new(), Vec::new());
    for call in file.calls {
        let numbers = call.numbers();
        let ends = [numbers.first(), numbers.last()].into_iter().flatten().copied();
        let cases: Vec<(u64, Case)> =
            ends.map(|number| (number, small_case(rng, *call, number))).collect();
        let whole = whole(&cases);
        functions.push_str(&calling(*call, &whole));
        for (number, case) in &cases {
            replay.push(format!("{}_{number}(rt)", call.name()));
            functions.push_str(&function(case, *number, &whole));
            answers.push_str(&answer(case));
        }
    }
    let replay = replay.join("?;\n    ");
    let head = heading(file);
    format!(
        "{head}{functions}pub fn replay(rt: &impl Print) -> io::Result<()> {{\n    {replay}\n}}\n"
    )
}

/// The buffers that have in every case the length that a desk gives them.
fn whole(cases: &[(u64, Case)]) -> Vec<Field> {
    let mut fields = vec![Field::State, Field::Log];
    fields.retain(|field| {
        cases.iter().all(|(_, case)| match field {
            Field::State => case.state.len() == STATE_WORDS,
            _ => case.log.len() == LOG_BYTES,
        })
    });
    fields
}

fn heading(file: &File) -> String {
    let mut text = format!("// {} Made by peer/src/bin/sample.rs.\n", file.head);
    text.push_str("use crate::fill::filled;\nuse crate::print::places;\n");
    let calls = file.calls.iter().map(|call| format!("skaldrift_{}", call.name())).collect();
    text.push_str(&import(&format!("skaldrift::{}", file.module), calls));
    text.push_str("use std::io;\n\n");
    text
}

fn import(module: &str, mut names: Vec<String>) -> String {
    names.sort();
    match names.as_slice() {
        [] => String::new(),
        [name] => format!("use {module}::{name};\n"),
        _ => format!("use {module}::{{{}}};\n", names.join(", ")),
    }
}

/// The arguments that the C function lends to be changed.
fn starred(call: Call) -> &'static [Field] {
    use Field::*;
    match call {
        Call::Open => &[State],
        Call::Write => &[State, Log],
        Call::Read => &[Work],
        Call::Flush => &[State, Image],
        Call::Judge => &[Work, Report],
        Call::Cut => &[State, Image, Report],
        Call::Gate => &[State, Log, Work, Report],
        Call::TapeWrite => &[State, Log, Predicted],
        Call::TapeFlush => &[State, Image, Start, Predicted],
        Call::TapeCut => &[State, Image, Start, Predicted, Report],
        Call::Setup => &[Image],
        Call::Run => &[Image, Log, Work],
    }
}

fn small_case(rng: &mut Rng, call: Call, wanted: u64) -> Case {
    let (mut tries, mut places) = (0, FEW_PLACES);
    loop {
        let mut case = random::case(rng, call);
        clear_the_rest(&mut case);
        tries += 1;
        places += usize::from(tries % PATIENCE == 0);
        let quick = wanted != 0 || case.rounds <= MOST_ROUNDS;
        let lends =
            starred(call).iter().all(|field| case.bytes(*field).is_none_or(|s| !s.is_empty()));
        if quick && lends && weight(&case) <= places && answered(&case, wanted) {
            return case;
        }
    }
}

/// A report of 0 tells little.
fn answered(case: &Case, wanted: u64) -> bool {
    let mut after = case.clone();
    after.put_to(&Oracle) == wanted && after.report != 0
}

/// Log bytes that the counted writes do not use are nobody's business, and a full log takes long
/// to write out.
fn clear_the_rest(case: &mut Case) {
    let lengths = case.state.iter().skip(2).step_by(2);
    let count = case.state.first().map_or(0, |count| *count as usize);
    let used = lengths.take(count).fold(0usize, |sum, len| sum.saturating_add(*len as usize));
    case.log.iter_mut().skip(used.min(MOST_LOG_BYTES)).for_each(|byte| *byte = 0);
}

/// How many places are written out.
fn weight(case: &Case) -> usize {
    let bytes = case.call.fields().iter().filter_map(|field| case.bytes(*field));
    used(&case.state) + bytes.map(|s| used(s)).sum::<usize>()
}

/// The places up to the last that is not zero.
fn used<T: Default + PartialEq>(values: &[T]) -> usize {
    values.iter().rposition(|value| *value != T::default()).map_or(0, |last| last + 1)
}

/// The function that makes the call, and prints what it answers and leaves behind.
fn calling(call: Call, whole: &[Field]) -> String {
    let (mut parameters, mut passed, mut shown) =
        (vec!["rt: &impl Print".to_string()], Vec::new(), String::new());
    for field in call.fields() {
        let (name, lent) = (field.name(), starred(call).contains(field));
        let changed = if lent { "mut " } else { "" };
        let by_value = whole.contains(field) || lent && plain(*field);
        parameters.push(match field {
            Field::State if by_value => format!("{changed}{name}: [u64; {STATE_WORDS}]"),
            Field::Log if by_value => format!("{changed}{name}: [u8; {LOG_BYTES}]"),
            Field::State => format!("{name}: &{changed}[u64]"),
            Field::Val0 | Field::Val1 => format!("{name}: u8"),
            _ if plain(*field) => format!("{changed}{name}: u64"),
            _ => format!("{name}: &{changed}[u8]"),
        });
        passed.push(if by_value { format!("&{changed}{name}") } else { name.to_string() });
    }
    for field in starred(call) {
        let (name, lent) = (field.name(), if whole.contains(field) { "&" } else { "" });
        let _ = match field {
            Field::Start | Field::Report => {
                writeln!(shown, "    print!(rt; \" {name} {{{name}}}\")?;")
            }
            _ => writeln!(shown, "    places(rt, \"{name}\", {lent}{name})?;"),
        };
    }
    let (name, parameters, passed) = (call.name(), parameters.join(", "), passed.join(", "));
    format!(
        "fn {name}({parameters}) -> io::Result<()> {{\n    \
         let answer = skaldrift_{name}({passed});\n    \
         print!(rt; \"{name} {{answer}}\")?;\n{shown}    println!(rt)\n}}\n\n"
    )
}

/// A plain number of 64 bits.
fn plain(field: Field) -> bool {
    use Field::*;
    matches!(field, Start | Addr | Len | Rounds | Report)
}

/// The function that hands the call what the case has.
fn function(case: &Case, wanted: u64, whole: &[Field]) -> String {
    let fields = case.call.fields().iter();
    let passed: Vec<String> = fields.map(|field| passed(case, *field, whole)).collect();
    let (name, passed) = (case.call.name(), passed.join(", "));
    format!(
        "fn {name}_{wanted}(rt: &impl Print) -> io::Result<()> {{\n    \
         {name}(rt, {passed})\n}}\n\n"
    )
}

fn passed(case: &Case, field: Field, whole: &[Field]) -> String {
    let changed = if starred(case.call).contains(&field) { "mut " } else { "" };
    match (field, case.bytes(field)) {
        (Field::State, _) if whole.contains(&field) => filled(&case.state),
        (_, Some(bytes)) if whole.contains(&field) => filled(bytes),
        (Field::State, _) => format!("&{changed}{}", literal(&case.state)),
        (_, Some(bytes)) => format!("&{changed}{}", literal(bytes)),
        (Field::Start, _) => case.start.to_string(),
        (Field::Report, _) => case.report.to_string(),
        (Field::Addr, _) => case.addr.to_string(),
        (Field::Len, _) => case.len.to_string(),
        (Field::Val0, _) => case.val0.to_string(),
        (Field::Val1, _) => case.val1.to_string(),
        (Field::Rounds, _) => case.rounds.to_string(),
        _ => unreachable!("{} is a buffer", field.name()),
    }
}

/// A buffer of a desk's length, of which the places that are not zero are written out.
fn filled<T: Default + PartialEq + std::fmt::Debug>(values: &[T]) -> String {
    format!("filled(&{:?})", &values[..used(values)])
}

fn literal<T: Default + PartialEq + std::fmt::Debug>(values: &[T]) -> String {
    if used(values) == 0 && values.len() > MOST_ZEROS {
        return format!("[0; {}]", values.len());
    }
    format!("{values:?}")
}

/// What the program prints for the case, by the oracle.
fn answer(case: &Case) -> String {
    let mut after = case.clone();
    let mut text = format!("{} {}", case.call.name(), after.put_to(&Oracle));
    for field in starred(case.call) {
        let _ = write!(text, " {}", field.name());
        match (field, after.bytes(*field)) {
            (Field::State, _) => places(&mut text, after.state.iter().copied()),
            (Field::Start, _) => text.push_str(&format!(" {}", after.start)),
            (Field::Report, _) => text.push_str(&format!(" {}", after.report)),
            (_, bytes) => {
                places(&mut text, bytes.into_iter().flatten().map(|byte| u64::from(*byte)))
            }
        }
    }
    text.push('\n');
    text
}

fn places(text: &mut String, values: impl Iterator<Item = u64>) {
    for (i, value) in values.enumerate().filter(|(_, value)| *value != 0) {
        let _ = write!(text, " {i}={value}");
    }
}
