use crate::answer;
use crate::closure::Closure;
use crate::tree::{Kind, Tree};
use std::collections::BTreeSet;
use std::path::{Path, PathBuf};

fn root() -> PathBuf {
    Path::new(env!("CARGO_MANIFEST_DIR")).join("..")
}

fn real() -> Tree {
    Tree::of(&root()).expect("the crates are there")
}

const DECLARED: &str = "\
#![tactic(auto)]

pub const MOST: usize = 8;

pub const LEAST: usize = 0;

// Which
#[derive(Clone, Copy)]
pub enum Say {
    // and why
    Yes,
    No { why: Why },
}

pub struct Why {
    pub all: [u8; MOST],
}";

const SMALL: &str = "\
-- The tail, and one behind it.
use Prim.Nat.{ℕ, ◌+◌}

abbrev pub tail : ℕ
tail = 0

abbrev pub one : ℕ → ℕ
one tail = lib.Sum.suc (tail + 1)

pub data Log : Type 0 where
  empty : Log
  -- and more
  ◌then◌ : Log → ℕ → Log

infixl 10 ◌then◌
abbrev pub unused : Log
unused = empty then tail";

const PASSED: &str = "pub use Rattle.low.specs.Small.{one, ◌then◌, Log}";

const BIG: &str = "\
use Prim.Nat.{ℕ}
use Rattle.low.specs.Passed.{one as uno, ◌then◌, Log}
use Rattle.low.specs.Small as small
use Rattle.low.specs.declared.Say.{Say}
use Rattle.low.specs.declared.Say.TheVariants.{Yes}

module _ (log : Log) where
  -- longer than tail
  abbrev pub longer : Say → Log
  longer Yes =
      log then

      uno 1

  pub record Both (say : Say) : Type 0 where
    pub tail : Log
    -- a field
    pub uno : longer say

unfoldable mutual
  pub even : ℕ → Log
  even n = odd n

  pub odd : ℕ → Log
  odd n = record { tail = even n; unused = λ tail. n }

abbrev pub waits : ℕ
waits = do
  n ← small.tail
  n";

const LAWS: &str = "\
use Rattle.low.specs.Small.{Log, tail}
use Rattle.high.specs.Big.{Both, even, longer}

holds : (log : Log) → Both log
unfolding even
holds log = longer even tail";

const FIELDS: &str = "\
use Rattle.low.specs.Small.{Log, empty}

pub record Pair : Type 0 where
  pub tail : Log

abbrev pub made : Pair
made = record { tail = empty }

abbrev pub back : Pair → Log
back pair = pair.tail

abbrev pub front : Log
front = made.tail";

const GROUPED: &str = "\
use low::{Why, MOST};

#[derive(Clone)]
pub struct Tall {
    pub all: [Why; MOST],
}";

fn made_up() -> Tree {
    let mut tree = Tree::default();
    for (path, text) in [
        ("crates/low/src/lib.rt", DECLARED),
        ("crates/low/specs/Small.antt", SMALL),
        ("crates/low/specs/Passed.antt", PASSED),
        ("crates/high/src/lib.rt", GROUPED),
        ("crates/high/specs/Big.antt", BIG),
        ("crates/high/specs/Fields.antt", FIELDS),
        ("crates/high/proofs/Laws.antt", LAWS),
    ] {
        tree.read_file(path.to_string(), text.lines().map(str::to_string).collect());
    }
    tree
}

/// What a name stands on, each with its lines, in the order that it is listed in.
fn listed(tree: &Tree, name: &str) -> Vec<(String, usize)> {
    let closure = Closure::of(tree, &[name.to_string()]).expect(name);
    let told = |index: &usize| {
        let entry = &tree.entries[*index];
        (entry.names.first().cloned().unwrap_or_default(), entry.lines())
    };
    closure.order.iter().map(told).collect()
}

fn pairs(expected: &[(&str, usize)]) -> Vec<(String, usize)> {
    expected.iter().map(|(name, lines)| (name.to_string(), *lines)).collect()
}

#[test]
fn a_name_bound_by_the_text_is_no_definition() {
    assert_eq!(listed(&made_up(), "one"), pairs(&[("one", 2)]));
}

#[test]
fn operators_variants_other_names_and_what_is_passed_on_are_followed() {
    let expected =
        [("MOST", 1), ("Say", 4), ("Why", 3), ("one", 2), ("Log", 3), ("", 1), ("longer", 4)];
    assert_eq!(listed(&made_up(), "longer"), pairs(&expected));
}

#[test]
fn a_field_is_of_what_stands_before_it() {
    assert_eq!(listed(&made_up(), "back"), pairs(&[("Log", 3), ("Pair", 2), ("back", 2)]));
    let expected = [("Log", 3), ("Pair", 2), ("made", 2), ("front", 2)];
    assert_eq!(listed(&made_up(), "front"), pairs(&expected));
}

#[test]
fn a_use_of_several_names_is_followed_and_an_attribute_is_no_line() {
    assert_eq!(listed(&made_up(), "Tall"), pairs(&[("MOST", 1), ("Why", 3), ("Tall", 3)]));
}

#[test]
fn a_mutual_block_is_one_thing() {
    assert_eq!(listed(&made_up(), "odd"), pairs(&[("Log", 3), ("even", 5)]));
}

#[test]
fn of_a_law_the_statement_is_read() {
    let names: Vec<String> =
        listed(&made_up(), "holds").into_iter().map(|(name, _)| name).collect();
    assert_eq!(names, ["MOST", "Say", "Why", "one", "Log", "", "longer", "Both", "holds"]);
}

#[test]
fn what_stands_for_nothing_is_an_error() {
    let tree = made_up();
    let error = |name: &str| Closure::of(&tree, &[name.to_string()]).err();
    let line = "crates/high/specs/Big.antt:28: what is ◌>>=◌?";
    assert_eq!(error("waits").as_deref(), Some(line));
    assert_eq!(error("missing").as_deref(), Some("nothing is called missing"));
}

#[test]
fn the_kit_is_told_by_module() {
    let tree = made_up();
    let list = Closure::of(&tree, &["one".to_string()]).expect("one").list();
    assert!(list.contains("\n  Prim.Nat: ℕ, ◌+◌\n  lib.Sum: suc\n"), "{list}");
}

#[test]
fn every_name_of_the_crates_is_resolved() {
    let tree = real();
    for index in 0..tree.entries.len() {
        if let Err(line) = tree.uses(index) {
            panic!("{line}");
        }
    }
    assert!(tree.entries.len() > 1000);
}

#[test]
fn every_import_of_a_specs_file_is_found_in_a_definition_of_it() {
    let tree = real();
    for (file, of) in tree.files.iter().enumerate().filter(|(_, of)| of.path.contains("/specs/")) {
        let (mut kit, mut ours) = (BTreeSet::new(), BTreeSet::new());
        for index in (0..tree.entries.len()).filter(|index| tree.entries[*index].file == file) {
            let uses = tree.uses(index).expect("resolved");
            kit.extend(uses.kit);
            for entry in uses.entries.iter().map(|used| &tree.entries[*used]) {
                ours.extend(entry.names.iter().chain(&entry.constructors).cloned());
            }
        }
        for import in of.imports.iter().filter(|import| !import.public) {
            let Some(name) = &import.name else { continue };
            let found = kit.contains(&(import.module.clone(), name.clone())) || ours.contains(name);
            assert!(found, "{}: {name} of {}", of.path, import.module);
        }
    }
}

#[test]
fn a_definition_comes_after_those_that_it_uses() {
    let tree = real();
    for (index, entry) in tree.entries.iter().enumerate() {
        let path = &tree.files[entry.file].path;
        if entry.kind != Kind::Definition || !path.contains("/specs/") {
            continue;
        }
        let stem = path.trim_start_matches("crates/").trim_end_matches(".antt");
        let name = format!("{stem}.{}", entry.names[0]);
        let order = Closure::of(&tree, &[name]).expect("resolved").order;
        assert_eq!(order.last(), Some(&index), "{path}: {:?}", entry.names);
        for (at, now) in order.iter().enumerate() {
            let uses = tree.uses(*now).expect("resolved").entries;
            assert!(uses.iter().all(|used| order[..at].contains(used)), "{path}");
        }
    }
}

#[test]
fn it_ends_with_the_number_that_the_usage_says() {
    let ends = |words: &str| {
        let words: Vec<String> = words.split_whitespace().map(str::to_string).collect();
        answer(&root(), &words).map_or_else(|(_, code)| code, |_| 0)
    };
    for (words, code) in [
        ("", 2),
        ("--text", 2),
        ("--at-most Session", 2),
        ("--at-least 3 Session", 2),
        ("no-such-name", 2),
        ("Step", 2),
        ("session.Step", 0),
        ("Run.Step", 0),
        ("session/Run.Step", 0),
        ("--text Session", 0),
        ("--at-most 1 Session", 1),
        ("--at-most 100000 Session Run", 0),
    ] {
        assert_eq!(ends(words), code, "{words}");
    }
}
