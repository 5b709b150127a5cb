//! The structs, enums and constants that a crate declares in `src/`, which specs may name.

use crate::tokens::Token;
use crate::tree::{Entry, Import, Kind, Tree};

/// Names, numbers and single signs; a comment goes to the end of its line.
fn words(text: &[String]) -> Vec<(usize, String)> {
    let mut found = Vec::new();
    for (number, line) in text.iter().enumerate() {
        let code = line.split("//").next().unwrap_or_default();
        let mut word = String::new();
        for c in code.chars().chain([' ']) {
            if c.is_alphanumeric() || c == '_' {
                word.push(c);
                continue;
            }
            if !word.is_empty() {
                found.push((number + 1, std::mem::take(&mut word)));
            }
            if !c.is_whitespace() {
                found.push((number + 1, c.to_string()));
            }
        }
    }
    found
}

/// Where the item that starts here ends: behind its `;`, or behind the brace that closes it.
fn item_end(words: &[(usize, String)], start: usize) -> usize {
    let mut depth = 0usize;
    for (at, (_, word)) in words.iter().enumerate().skip(start) {
        match word.as_str() {
            "{" | "(" | "[" => depth += 1,
            "}" | ")" | "]" => depth = depth.saturating_sub(1),
            _ => {}
        }
        if depth == 0 && (word == "}" || word == ";") {
            return at + 1;
        }
    }
    words.len()
}

pub fn read(tree: &mut Tree, file: usize) {
    let words = words(&tree.files[file].text);
    let mut at = 0;
    while at < words.len() {
        let end = item_end(&words, at);
        read_item(tree, file, &words[at..end]);
        at = end;
    }
}

/// The item without what stands in `#[..]` or `#![..]` before it.
fn without_attributes(mut item: &[(usize, String)]) -> &[(usize, String)] {
    while item.first().is_some_and(|(_, word)| word == "#") {
        let mut depth = 0usize;
        let ends = |(_, word): &(usize, String)| {
            match word.as_str() {
                "[" => depth += 1,
                "]" => depth = depth.saturating_sub(1),
                _ => {}
            }
            depth == 0 && word == "]"
        };
        let end = item.iter().position(ends).map_or(item.len(), |end| end + 1);
        item = &item[end..];
    }
    item
}

fn read_item(tree: &mut Tree, file: usize, item: &[(usize, String)]) {
    let item = without_attributes(item);
    let outer = ["pub", "(", "crate", ")"];
    let start = item.iter().take_while(|(_, word)| outer.contains(&word.as_str())).count();
    let bare: Vec<&str> = item[start..].iter().map(|(_, word)| word.as_str()).collect();
    match bare.as_slice() {
        ["use", path @ ..] => {
            let signs = [":", ";"];
            let words: Vec<&str> =
                path.iter().copied().filter(|word| !signs.contains(word)).collect();
            read_use(tree, file, &[], &words);
        }
        ["struct" | "enum" | "const", name, ..] => {
            let constructors = if bare[0] == "enum" { variants(&bare) } else { Vec::new() };
            let tokens = item.iter().map(|(line, word)| Token::word(word, *line)).collect();
            tree.add(Entry {
                file,
                kind: Kind::Declared,
                names: vec![name.to_string()],
                constructors,
                section: None,
                tokens,
            });
        }
        _ => {}
    }
}

/// `use region::LOG_LIMIT;` is of the crate's lib, `use desk::state::{State, fresh};` of its state.
fn read_use(tree: &mut Tree, file: usize, before: &[&str], path: &[&str]) {
    if let Some(brace) = path.iter().position(|word| *word == "{") {
        let before = [before, &path[..brace]].concat();
        let mut depth = 0usize;
        let parts = path[brace + 1..].split(|word| {
            match *word {
                "{" => depth += 1,
                "}" => depth = depth.saturating_sub(1),
                _ => {}
            }
            depth == 0 && (*word == "," || *word == "}")
        });
        for part in parts {
            read_use(tree, file, &before, part);
        }
        return;
    }
    let path = [before, path].concat();
    let [package, modules @ .., name] = path.as_slice() else { return };
    let own = tree.files[file].path.split('/').nth(1).unwrap_or_default();
    let package = if *package == "crate" { own } else { package };
    let within = if modules.is_empty() { "lib".to_string() } else { modules.join("/") };
    let module = format!("crates/{package}/src/{within}.rt");
    let (local, name) = (name.to_string(), Some(name.to_string()));
    tree.files[file].imports.push(Import { public: false, local, module, name });
}

/// The words that stand first between the commas of an enum's braces.
fn variants(item: &[&str]) -> Vec<String> {
    let mut depth = 0usize;
    let mut before = "";
    let mut found = Vec::new();
    for word in item {
        match *word {
            "{" | "(" => depth += 1,
            "}" | ")" => depth = depth.saturating_sub(1),
            "," => {}
            _ if depth == 1 && (before == "{" || before == ",") => found.push(word.to_string()),
            _ => {}
        }
        before = word;
    }
    found
}

/// What Rust names without an import.
const PRELUDE: [&str; 2] = ["Option", "Result"];

/// The declared things that one names: types and constants start with a capital.
pub fn uses(tree: &Tree, entry: &Entry) -> Result<Vec<usize>, String> {
    let file = &tree.files[entry.file];
    let mut found = Vec::new();
    for token in &entry.tokens {
        let word = &token.text;
        let own = entry.names.contains(word) || entry.constructors.contains(word);
        if own || PRELUDE.contains(&word.as_str()) || !word.starts_with(char::is_uppercase) {
            continue;
        }
        let import = file.imports.iter().find(|import| import.local == *word);
        let there = import.and_then(|import| tree.at.get(&import.module));
        let names = &there.map_or(file, |there| &tree.files[*there]).names;
        match names.get(word) {
            Some(entries) => found.extend(entries),
            None => return Err(format!("{}:{}: what is {word}?", file.path, token.line)),
        }
    }
    Ok(found)
}
