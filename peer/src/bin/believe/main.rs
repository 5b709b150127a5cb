//! What must be believed to believe a statement: every definition of the crates that it stands on,
//! a definition after those that it uses, and where the kit's own begin.
//!
//! A text is read by its words and columns; there is no parser. A name stands for what the text
//! binds, for what its file defines, or for what its file imports, and a name that stands for
//! none of these is an error: nothing is passed over.

mod closure;
mod declared;
mod names;
#[cfg(test)]
mod tests;
mod tokens;
mod tree;

use closure::Closure;
use std::io::Write;
use std::path::Path;
use std::process::ExitCode;
use tree::Tree;

const USAGE: &str = "usage: ./believe [--text] NAME..
       ./believe --at-most LINES NAME..
Lists what the named definitions, promises and laws stand on, of a law what its statement does;
with --text the definitions themselves. With --at-most it fails if they have more lines together.
A name that stands for two things is chosen by its crate, its file or both: session.Step, Run.Step,
session/Run.Step.";

enum Ask {
    List,
    Text,
    AtMost(usize),
}

fn asked(mut words: &[String]) -> Option<(Ask, &[String])> {
    let mut ask = Ask::List;
    match words {
        [option, rest @ ..] if option == "--text" => (ask, words) = (Ask::Text, rest),
        [option, most, rest @ ..] if option == "--at-most" => {
            (ask, words) = (Ask::AtMost(most.parse().ok()?), rest);
        }
        _ => {}
    }
    (!words.is_empty() && !words.iter().any(|word| word.starts_with("--"))).then_some((ask, words))
}

/// What is printed, or the line that says what is wrong and the number to end with.
fn answer(root: &Path, words: &[String]) -> Result<String, (String, u8)> {
    let (ask, names) = asked(words).ok_or((USAGE.to_string(), 2))?;
    let wrong = |line: String| (format!("believe: {line}"), 2);
    let tree = Tree::of(root).map_err(|error| wrong(format!("{}: {error}", root.display())))?;
    let closure = Closure::of(&tree, names).map_err(wrong)?;
    let (lines, names) = (closure.lines(), names.join(" "));
    match ask {
        Ask::List => Ok(closure.list()),
        Ask::Text => Ok(closure.text()),
        Ask::AtMost(most) if lines <= most => {
            Ok(format!("{names}: {lines} lines to believe, at most {most}\n"))
        }
        Ask::AtMost(most) => {
            Err((format!("believe: {names}: {lines} lines to believe, more than {most}"), 1))
        }
    }
}

fn main() -> ExitCode {
    let words: Vec<String> = std::env::args().skip(1).collect();
    let root = Path::new(concat!(env!("CARGO_MANIFEST_DIR"), "/.."));
    match answer(root, &words) {
        Ok(text) => {
            // whoever reads only the beginning may close the pipe
            let _ = std::io::stdout().write_all(text.as_bytes());
            ExitCode::SUCCESS
        }
        Err((line, code)) => {
            eprintln!("{line}");
            ExitCode::from(code)
        }
    }
}
