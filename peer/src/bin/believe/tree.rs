//! The files of the crates, what each defines and what each imports.

use crate::declared;
use crate::tokens::{Shape, Token, bare, has_modifier, items, outer_words, shape, tokens};
use std::collections::{BTreeSet, HashMap, HashSet};
use std::fs;
use std::io;
use std::path::Path;

pub struct Import {
    pub public: bool,
    pub local: String,
    pub module: String,
    /// The name there; a module under another name has none.
    pub name: Option<String>,
}

pub struct File {
    /// From the root on: `crates/session/specs/Run.antt`.
    pub path: String,
    pub text: Vec<String>,
    pub imports: Vec<Import>,
    /// Every name that is defined here, constructors and the words of an operator too.
    pub names: HashMap<String, Vec<usize>>,
}

#[derive(Clone, Copy, PartialEq)]
pub enum Kind {
    Definition,
    /// Of a law the statement is read, and not the proof.
    Law,
    Section,
    /// A struct, an enum or a constant of `src/`.
    Declared,
}

/// What is read as one thing: a definition, a law's statement, or the head of a section.
pub struct Entry {
    pub file: usize,
    pub kind: Kind,
    pub names: Vec<String>,
    pub constructors: Vec<String>,
    pub section: Option<usize>,
    pub tokens: Vec<Token>,
}

impl Entry {
    pub fn first(&self) -> usize {
        self.tokens.first().map_or(0, |token| token.line)
    }

    pub fn last(&self) -> usize {
        self.tokens.last().map_or(0, |token| token.line)
    }

    /// The lines that have a word: neither comments nor blank ones.
    pub fn lines(&self) -> usize {
        self.tokens.iter().map(|token| token.line).collect::<BTreeSet<_>>().len()
    }
}

#[derive(Default)]
pub struct Tree {
    pub files: Vec<File>,
    pub entries: Vec<Entry>,
    pub at: HashMap<String, usize>,
    /// The crates that have a file here; of every other the kit has the text.
    pub crates: HashSet<String>,
}

/// The words of an operator, which stand in the text one by one: `then` of `◌then◌`.
pub fn operator_words(name: &str) -> impl Iterator<Item = &str> {
    name.split('◌').filter(move |word| name.contains('◌') && !word.is_empty())
}

impl Tree {
    pub fn of(root: &Path) -> io::Result<Tree> {
        let mut tree = Tree::default();
        let mut crates: Vec<_> =
            fs::read_dir(root.join("crates"))?.collect::<Result<Vec<_>, _>>()?;
        crates.sort_by_key(|folder| folder.file_name());
        for folder in crates {
            for part in ["src", "specs", "proofs"] {
                let within = folder.path().join(part);
                if within.is_dir() {
                    tree.read_folder(root, &within)?;
                }
            }
        }
        Ok(tree)
    }

    fn read_folder(&mut self, root: &Path, folder: &Path) -> io::Result<()> {
        let mut paths: Vec<_> =
            fs::read_dir(folder)?.map(|entry| Ok(entry?.path())).collect::<io::Result<_>>()?;
        paths.sort();
        for path in paths {
            if path.extension().is_some_and(|end| end == "antt" || end == "rt") {
                let name = path.strip_prefix(root).unwrap_or(&path).display().to_string();
                let text = fs::read_to_string(&path)?.lines().map(str::to_string).collect();
                self.read_file(name, text);
            }
        }
        Ok(())
    }

    pub fn read_file(&mut self, path: String, text: Vec<String>) {
        let file = self.files.len();
        self.at.insert(path.clone(), file);
        self.crates.extend(path.split('/').nth(1).map(str::to_string));
        let declared = path.ends_with(".rt");
        self.files.push(File { path, text, imports: Vec::new(), names: HashMap::new() });
        if declared {
            declared::read(self, file);
        } else {
            let tokens = tokens(&self.files[file].text);
            self.read_block(file, &tokens, None);
        }
    }

    pub fn add(&mut self, entry: Entry) -> usize {
        let index = self.entries.len();
        let names = &mut self.files[entry.file].names;
        for name in entry.names.iter().chain(&entry.constructors) {
            names.entry(name.clone()).or_default().push(index);
            if entry.kind != Kind::Declared {
                for word in operator_words(name) {
                    names.entry(word.to_string()).or_default().push(index);
                }
            }
        }
        self.entries.push(entry);
        index
    }

    fn read_block(&mut self, file: usize, block: &[Token], section: Option<usize>) {
        let in_proofs = self.files[file].path.contains("/proofs/");
        // the definition whose clauses may follow
        let mut open = None;
        for item in items(block) {
            let plain = !has_modifier(item, "abbrev") && !has_modifier(item, "unfoldable");
            let mut entry = Entry {
                file,
                kind: Kind::Definition,
                names: Vec::new(),
                constructors: Vec::new(),
                section,
                tokens: item.to_vec(),
            };
            match shape(item) {
                Shape::Use => self.read_use(file, item),
                Shape::Section { head, body } => {
                    entry.kind = Kind::Section;
                    entry.tokens = head.to_vec();
                    let inner = self.add(entry);
                    self.read_block(file, body, Some(inner));
                }
                Shape::Mutual { body } if in_proofs && plain => {
                    self.read_block(file, body, section);
                }
                Shape::Unfolding | Shape::Clause { .. } => {
                    if let Some(open) = open {
                        let entry: &mut Entry = &mut self.entries[open];
                        if entry.kind == Kind::Definition {
                            entry.tokens.extend_from_slice(item);
                        }
                    }
                    continue;
                }
                Shape::Aside => {}
                _ => {
                    name_all(item, &mut entry);
                    let signature = matches!(shape(item), Shape::Signature { .. });
                    if signature && in_proofs && plain {
                        entry.kind = Kind::Law;
                    }
                    open = Some(self.add(entry));
                    continue;
                }
            }
            open = None;
        }
    }

    /// `use M.{a, b as c}`, `use M as m`, `use M`.
    fn read_use(&mut self, file: usize, item: &[Token]) {
        let public = has_modifier(item, "pub");
        let words: Vec<&str> = bare(item)[1..].iter().map(|token| token.text.as_str()).collect();
        let module = words.first().copied().unwrap_or_default();
        let imports = &mut self.files[file].imports;
        let Some(brace) = words.iter().position(|word| *word == "{") else {
            let last = module.rsplit('.').next().unwrap_or_default();
            let local = words.last().filter(|_| words.contains(&"as")).unwrap_or(&last).to_string();
            imports.push(Import { public, local, module: module.to_string(), name: None });
            return;
        };
        for word in words[brace + 1..].split(|word| *word == "," || *word == "}") {
            let (Some(name), Some(local)) = (word.first(), word.last()) else { continue };
            for local in std::iter::once(*local).chain(operator_words(local)) {
                imports.push(Import {
                    public,
                    local: local.to_string(),
                    module: module.to_string(),
                    name: Some(name.to_string()),
                });
            }
        }
    }
}

/// The names that an item defines, those of all its members if it is a mutual block.
fn name_all(item: &[Token], entry: &mut Entry) {
    match shape(item) {
        Shape::Mutual { body } => {
            for inner in items(body) {
                name_all(inner, entry);
            }
        }
        Shape::Record { head, .. } => entry.names.extend(outer_words(head).get(1).cloned()),
        Shape::Data { head, constructors } => {
            entry.names.extend(outer_words(head).get(1).cloned());
            for constructor in items(constructors) {
                if let Shape::Signature { names, .. } = shape(constructor) {
                    entry.constructors.extend(outer_words(names));
                }
            }
        }
        Shape::Signature { names, .. } => entry.names.extend(outer_words(names)),
        _ => {}
    }
}
