//! What the names of a text stand for: what it binds itself, what its file defines or imports.

use crate::declared;
use crate::tokens::{Shape, Token, items, outer_words, shape};
use crate::tree::{Entry, Import, Kind, Tree, operator_words};
use std::collections::BTreeSet;

/// The language's own words and signs.
const LANGUAGE: &str = "Type → × = : | ↦ ← _ [ ] . , ; record elim in do let tt Unit ⊥";

/// What a name stands for: a module of the kit has it, or it is one of these entries.
enum Meaning {
    Kit { module: String, name: String },
    Ours { entries: Vec<usize>, constructor: bool },
}

enum Module {
    Kit,
    File(usize),
    Declared { file: usize, name: String },
}

/// What an entry names.
#[derive(Default)]
pub struct Uses {
    pub entries: BTreeSet<usize>,
    /// A module and a name in it.
    pub kit: BTreeSet<(String, String)>,
}

impl Tree {
    /// `Rattle.CRATE.specs.FILE`, where the crate is one of ours and none of the kit's;
    /// `Rattle.CRATE.specs.declared.FILE.TYPE` is a type of `src/`.
    fn module(&self, module: &str) -> Option<Module> {
        let Some(path) = module.strip_prefix("Rattle.") else { return Some(Module::Kit) };
        let (package, path) = path.split_once('.')?;
        if !self.crates.contains(package) {
            return Some(Module::Kit);
        }
        if let Some(declared) = path.strip_prefix("specs.declared.") {
            let mut parts: Vec<&str> = declared.split('.').collect();
            parts.pop_if(|last| *last == "TheVariants");
            let name = parts.pop()?.to_string();
            let within = if parts.is_empty() { "lib".to_string() } else { parts.join("/") };
            let file = *self.at.get(&format!("crates/{package}/src/{within}.rt"))?;
            return Some(Module::Declared { file, name });
        }
        match self.at.get(&format!("crates/{package}/{}.antt", path.replace('.', "/"))) {
            Some(file) => Some(Module::File(*file)),
            // no file of ours: the kit makes it of a declared type or of a function
            None => ["proofs.", "specs.contracts."]
                .iter()
                .any(|made| path.starts_with(made))
                .then_some(Module::Kit),
        }
    }

    fn entries_named(&self, file: usize, name: &str) -> Option<Meaning> {
        let entries = self.files[file].names.get(name)?.clone();
        let is_one = |index: &usize| {
            self.entries[*index].constructors.iter().any(|constructor| {
                constructor == name || operator_words(constructor).any(|word| word == name)
            })
        };
        let constructor = entries.iter().any(is_one);
        Some(Meaning::Ours { entries, constructor })
    }

    /// What a module hands to whoever imports the name from it.
    fn exported(&self, module: &str, name: &str) -> Option<Meaning> {
        match self.module(module)? {
            Module::Kit => {
                Some(Meaning::Kit { module: module.to_string(), name: name.to_string() })
            }
            Module::File(file) => self.entries_named(file, name).or_else(|| {
                let passed = |import: &&Import| import.public && import.local == name;
                let import = self.files[file].imports.iter().find(passed)?;
                self.exported(&import.module, import.name.as_ref()?)
            }),
            Module::Declared { file, name: of } => {
                let is_it = |index: &usize| {
                    let entry = &self.entries[*index];
                    entry.names.contains(&of)
                        && (of == name || entry.constructors.iter().any(|one| one == name))
                };
                let entry = *self.files[file].names.get(name)?.iter().find(|index| is_it(index))?;
                Some(Meaning::Ours { entries: vec![entry], constructor: of != name })
            }
        }
    }

    fn meaning(&self, file: usize, name: &str) -> Option<Meaning> {
        let imports = &self.files[file].imports;
        if let Some((module, last)) = name.rsplit_once('.') {
            let (first, rest) = module.split_at(module.find('.').unwrap_or(module.len()));
            let alias =
                imports.iter().find(|import| import.name.is_none() && import.local == first);
            // a field is written tight behind what has it
            if alias.is_none()
                && let Some(of) = self.meaning(file, first)
            {
                return Some(of);
            }
            let first = alias.map_or(first, |alias| &alias.module);
            return self.exported(&format!("{first}{rest}"), last);
        }
        self.entries_named(file, name).or_else(|| {
            let import =
                imports.iter().find(|import| import.name.is_some() && import.local == name)?;
            self.exported(&import.module, import.name.as_ref()?)
        })
    }

    /// The names that an entry binds for what stands in it: a section's, and those around it.
    fn section_binders(&self, section: Option<usize>) -> Vec<String> {
        let Some(section) = section else { return Vec::new() };
        let mut names = self.section_binders(self.entries[section].section);
        let head = &self.entries[section].tokens;
        names.extend((0..head.len()).flat_map(|at| group(&head[at..])));
        names.extend(levels(head));
        names
    }

    pub fn uses(&self, index: usize) -> Result<Uses, String> {
        let entry = &self.entries[index];
        if entry.kind == Kind::Declared {
            let entries = declared::uses(self, entry)?.into_iter().collect();
            return Ok(Uses { entries, ..Uses::default() });
        }
        let mut walk = Walk {
            tree: self,
            entry,
            frames: vec![Frame { names: self.section_binders(entry.section), pending: Vec::new() }],
            uses: Uses::default(),
        };
        if entry.kind == Kind::Section {
            walk.head(entry.tokens.get(2..).unwrap_or_default())?;
        } else {
            walk.block(&entry.tokens)?;
        }
        walk.uses.entries.extend(entry.section);
        walk.uses.entries.remove(&index);
        Ok(walk.uses)
    }
}

/// The names that the group which opens here binds, if it is one: `(a b : A)`, `{a b : A}`.
fn group(tokens: &[Token]) -> Vec<String> {
    if !["(", "{"].contains(&tokens[0].text.as_str()) {
        return Vec::new();
    }
    let names: Vec<String> = tokens[1..]
        .iter()
        .map(|token| token.text.clone())
        .take_while(|text| is_word(text))
        .collect();
    let ends = tokens.get(1 + names.len()).is_some_and(|token| token.text == ":");
    if ends { names } else { Vec::new() }
}

/// What is bound in front of a colon without a type: `f {ℓ} : ..`.
fn levels(head: &[Token]) -> Vec<String> {
    let texts: Vec<&str> = head.iter().map(|token| token.text.as_str()).collect();
    let alone = |three: &&[&str]| three[0] == "{" && is_word(three[1]) && three[2] == "}";
    texts.windows(3).filter(alone).map(|three| three[1].to_string()).collect()
}

fn is_word(text: &str) -> bool {
    !["(", ")", "{", "}", ",", ";", ":", "=", ".", "λ"].contains(&text)
}

/// An open bracket: the names bound in it so far, and those that it binds for what follows it.
#[derive(Default)]
struct Frame {
    names: Vec<String>,
    pending: Vec<String>,
}

struct Walk<'a> {
    tree: &'a Tree,
    entry: &'a Entry,
    frames: Vec<Frame>,
    uses: Uses,
}

impl Walk<'_> {
    fn block(&mut self, tokens: &[Token]) -> Result<(), String> {
        for item in items(tokens) {
            match shape(item) {
                Shape::Mutual { body } => self.block(body)?,
                Shape::Record { head, fields } => self.inside(|walk| {
                    walk.head(head.get(2..).unwrap_or_default())?;
                    for field in items(fields) {
                        walk.member(field, true)?;
                    }
                    Ok(())
                })?,
                Shape::Data { head, constructors } => self.inside(|walk| {
                    walk.head(head.get(2..).unwrap_or_default())?;
                    for constructor in items(constructors) {
                        walk.member(constructor, false)?;
                    }
                    Ok(())
                })?,
                Shape::Signature { names, of } => self.inside(|walk| {
                    walk.head(&names[outer_words(names).len()..])?;
                    walk.text(of)
                })?,
                Shape::Clause { left, right } => self.inside(|walk| {
                    walk.pattern(left)?;
                    walk.text(right)
                })?,
                Shape::Unfolding => self.text(&item[1..])?,
                Shape::Use | Shape::Section { .. } | Shape::Aside => {}
            }
        }
        Ok(())
    }

    /// A field or a constructor. A later field may name an earlier one.
    fn member(&mut self, item: &[Token], field: bool) -> Result<(), String> {
        let Shape::Signature { names, of } = shape(item) else { return Ok(()) };
        self.inside(|walk| walk.text(of))?;
        if field {
            self.bind(outer_words(names));
        }
        Ok(())
    }

    fn inside(&mut self, read: impl FnOnce(&mut Self) -> Result<(), String>) -> Result<(), String> {
        let depth = self.frames.len();
        self.frames.push(Frame::default());
        let done = read(self);
        self.frames.truncate(depth);
        done
    }

    fn bind(&mut self, names: Vec<String>) {
        if let Some(frame) = self.frames.last_mut() {
            frame.names.extend(names);
        }
    }

    fn open(&mut self, pending: Vec<String>) {
        self.frames.push(Frame { names: Vec::new(), pending });
    }

    fn close(&mut self) {
        if let Some(frame) = self.frames.pop() {
            self.bind(frame.pending);
        }
    }

    /// What stands behind a name: the arguments, levels among them, and the type.
    fn head(&mut self, head: &[Token]) -> Result<(), String> {
        self.bind(levels(head));
        self.text(head)
    }

    /// The left side of a clause: what is no constructor is a name that the clause binds.
    fn pattern(&mut self, left: &[Token]) -> Result<(), String> {
        for (at, token) in left.iter().enumerate() {
            let text = &token.text;
            let label = left.get(at + 1).is_some_and(|next| next.text == "=");
            let own = at == 0 && self.entry.names.contains(text);
            if own || label || !is_word(text) || is_literal(text) || text == "_" {
                continue;
            }
            match self.tree.meaning(self.entry.file, text) {
                Some(Meaning::Kit { .. } | Meaning::Ours { constructor: true, .. }) => {
                    self.name(token)?;
                }
                _ => self.bind(vec![text.clone()]),
            }
        }
        Ok(())
    }

    fn text(&mut self, tokens: &[Token]) -> Result<(), String> {
        let is = |at: usize, text: &str| tokens.get(at).is_some_and(|token| token.text == text);
        let mut at = 0;
        while at < tokens.len() {
            match tokens[at].text.as_str() {
                "(" | "{" => {
                    let names = group(&tokens[at..]);
                    at += names.len();
                    self.open(names);
                }
                ")" | "}" => self.close(),
                // in a record each field has its own λ
                ";" => {
                    if let Some(frame) = self.frames.last_mut() {
                        frame.names.clear();
                    }
                }
                "λ" => at = self.lambda(tokens, at + 1)?,
                "do" => self.name(&Token::word("◌>>=◌", tokens[at].line))?,
                "[" | "|" => {
                    let alternative = tokens[at + 1..].iter().position(|token| token.text == "↦");
                    let end = at + 1 + alternative.unwrap_or(0);
                    self.pattern(&tokens[at + 1..end])?;
                    at = end - 1;
                }
                text if is(at + 1, "←") || (at > 0 && is(at - 1, "let")) => {
                    self.bind(vec![text.to_string()]);
                }
                // a field's name in a record, or an argument's in braces
                _ if is(at + 1, "=") && at > 0 && (is(at - 1, "{") || is(at - 1, ";")) => {}
                _ => self.name(&tokens[at])?,
            }
            at += 1;
        }
        Ok(())
    }

    /// The names of a λ, up to its dot.
    fn lambda(&mut self, tokens: &[Token], start: usize) -> Result<usize, String> {
        let length = tokens[start..].iter().take_while(|token| token.text != ".").count();
        let names = &tokens[start..start + length];
        self.bind(outer_words(names));
        self.head(names)?;
        Ok(start + length)
    }

    fn name(&mut self, token: &Token) -> Result<(), String> {
        let text = token.text.as_str();
        // a field is written tight behind what has it: of `d.image` the name is d
        let whole = text.split('.').next().unwrap_or(text);
        let bound = self.frames.iter().any(|frame| frame.names.iter().any(|name| name == whole));
        let field = text.starts_with('.');
        if bound || field || is_literal(text) || LANGUAGE.split(' ').any(|word| word == text) {
            return Ok(());
        }
        match self.tree.meaning(self.entry.file, text) {
            Some(Meaning::Kit { module, name }) => {
                self.uses.kit.insert((module, name));
            }
            Some(Meaning::Ours { entries, .. }) => self.uses.entries.extend(entries),
            None => {
                let path = &self.tree.files[self.entry.file].path;
                return Err(format!("{path}:{}: what is {text}?", token.line));
            }
        }
        Ok(())
    }
}

fn is_literal(text: &str) -> bool {
    text.starts_with(|c: char| c.is_ascii_digit())
}
