//! All that some entries stand on, in an order to read it in, and how it is printed.

use crate::names::Uses;
use crate::tree::{Entry, Kind, Tree};
use std::collections::{BTreeMap, BTreeSet};
use std::fmt::Write;

pub struct Closure<'a> {
    tree: &'a Tree,
    uses: BTreeMap<usize, Uses>,
    /// Entries, each after those that it uses, those of one file together.
    pub order: Vec<usize>,
}

const COUNTED: &str = "Counted is each line of a definition or of a law's statement, and the head \
    of a section once; comments, those above a definition too, and blank lines are not.";

/// `crates/session/specs/Run.antt`: the crate, the folder and the file.
fn place(path: &str) -> (&str, &str, &str) {
    let mut parts = path.splitn(4, '/').skip(1);
    let mut part = || parts.next().unwrap_or_default();
    let (package, folder, file) = (part(), part(), part());
    (package, folder, file.rsplit_once('.').map_or(file, |(stem, _)| stem))
}

/// The entries of a name, or of `CRATE.NAME`, `FILE.NAME`, `CRATE/FILE.NAME`.
fn candidates(tree: &Tree, asked: &str) -> Vec<usize> {
    let (of, name) = asked.rsplit_once('.').unwrap_or(("", asked));
    let fits = |entry: &Entry| {
        let (package, folder, file) = place(&tree.files[entry.file].path);
        let places = [
            String::new(),
            package.to_string(),
            file.to_string(),
            format!("{package}/{file}"),
            format!("{package}/{folder}/{file}"),
        ];
        entry.names.iter().any(|own| own == name) && places.iter().any(|place| place == of)
    };
    (0..tree.entries.len()).filter(|index| fits(&tree.entries[*index])).collect()
}

fn chosen(tree: &Tree, asked: &str) -> Result<usize, String> {
    let found = candidates(tree, asked);
    match found.as_slice() {
        [] => Err(format!("nothing is called {asked}")),
        [one] => Ok(*one),
        several => {
            let mut lines = format!("{asked} stands for more than one thing:");
            for index in several {
                let entry = &tree.entries[*index];
                let (package, folder, file) = place(&tree.files[entry.file].path);
                let name = asked.rsplit('.').next().unwrap_or(asked);
                let _ = write!(lines, "\n  {package}/{folder}/{file}.{name}");
            }
            Err(lines)
        }
    }
}

/// The keys, each after those that it stands on.
fn sorted<K: Copy + Ord>(needs: &BTreeMap<K, BTreeSet<K>>) -> Vec<K> {
    fn visit<K: Copy + Ord>(
        key: K,
        needs: &BTreeMap<K, BTreeSet<K>>,
        seen: &mut BTreeSet<K>,
        found: &mut Vec<K>,
    ) {
        if seen.insert(key) {
            for need in needs.get(&key).into_iter().flatten() {
                visit(*need, needs, seen, found);
            }
            found.push(key);
        }
    }
    let (mut seen, mut found) = (BTreeSet::new(), Vec::new());
    for key in needs.keys() {
        visit(*key, needs, &mut seen, &mut found);
    }
    found
}

impl<'a> Closure<'a> {
    pub fn of(tree: &'a Tree, names: &[String]) -> Result<Closure<'a>, String> {
        let mut left = Vec::new();
        for name in names {
            left.push(chosen(tree, name)?);
        }
        let mut uses = BTreeMap::new();
        while let Some(index) = left.pop() {
            if uses.contains_key(&index) {
                continue;
            }
            let found = tree.uses(index)?;
            left.extend(&found.entries);
            uses.insert(index, found);
        }
        let mut closure = Closure { tree, uses, order: Vec::new() };
        closure.order = closure.ordered();
        Ok(closure)
    }

    /// What groups of entries stand on, an entry's group being given.
    fn needs<K: Copy + Ord>(&self, group: impl Fn(usize) -> K) -> BTreeMap<K, BTreeSet<K>> {
        let mut needs: BTreeMap<K, BTreeSet<K>> = BTreeMap::new();
        for (index, uses) in &self.uses {
            let of = group(*index);
            let others = uses.entries.iter().map(|used| group(*used)).filter(|used| *used != of);
            needs.entry(of).or_default().extend(others);
        }
        needs
    }

    /// Crate by crate, in a crate file by file, and in a file from the top.
    fn ordered(&self) -> Vec<usize> {
        let file = |index: usize| self.tree.entries[index].file;
        let package = |file: usize| place(&self.tree.files[file].path).0;
        let files = sorted(&self.needs(file));
        let mut order = Vec::new();
        for package_now in sorted(&self.needs(|index| package(file(index)))) {
            for now in files.iter().filter(|file| package(**file) == package_now) {
                let mut there: Vec<usize> =
                    self.uses.keys().copied().filter(|index| file(*index) == *now).collect();
                there.sort_by_key(|index| self.tree.entries[*index].first());
                order.extend(there);
            }
        }
        order
    }

    fn entries(&self) -> impl Iterator<Item = &'a Entry> {
        self.order.iter().map(|index| &self.tree.entries[*index])
    }

    pub fn lines(&self) -> usize {
        self.entries().map(Entry::lines).sum()
    }

    /// The entries of each file, in their order.
    fn by_file(&self) -> Vec<Vec<&'a Entry>> {
        let mut files: Vec<Vec<&Entry>> = Vec::new();
        for entry in self.entries() {
            match files.last_mut() {
                Some(file) if file[0].file == entry.file => file.push(entry),
                _ => files.push(vec![entry]),
            }
        }
        files
    }

    fn called(&self, entry: &Entry) -> String {
        match entry.kind {
            Kind::Section => {
                let words = entry.tokens.iter().map(|token| token.text.as_str());
                let head = words.collect::<Vec<_>>().join(" ");
                head.replace("( ", "(").replace(" )", ")").replace("{ ", "{").replace(" }", "}")
            }
            Kind::Law => format!("{}, its statement", entry.names.join(", ")),
            _ => entry.names.join(", "),
        }
    }

    pub fn list(&self) -> String {
        let mut out = String::new();
        for file in self.by_file() {
            let lines: usize = file.iter().map(|entry| entry.lines()).sum();
            let _ = writeln!(out, "{}, {lines} lines", self.tree.files[file[0].file].path);
            for entry in file {
                let range = match (entry.first(), entry.last()) {
                    (first, last) if first == last => first.to_string(),
                    (first, last) => format!("{first}-{last}"),
                };
                let _ = writeln!(out, "{:5}  {range:<9}{}", entry.lines(), self.called(entry));
            }
        }
        out.push_str(&self.foot());
        out
    }

    /// The total, and where the kit begins: the names that come from it, by module.
    fn foot(&self) -> String {
        let mut modules: BTreeMap<&str, BTreeSet<&str>> = BTreeMap::new();
        for (module, name) in self.uses.values().flat_map(|uses| &uses.kit) {
            modules.entry(module).or_default().insert(name);
        }
        let definitions = self.entries().filter(|entry| entry.kind != Kind::Section).count();
        let mut out = format!("\n{} lines; definitions: {definitions}\n", self.lines());
        if !modules.is_empty() {
            out.push_str("\nWhere the kit's own begin:\n");
        }
        for (module, names) in modules {
            let names: Vec<&str> = names.into_iter().collect();
            let _ = writeln!(out, "  {module}: {}", names.join(", "));
        }
        let _ = writeln!(out, "\n{COUNTED}");
        out
    }

    /// The comments that stand right above an entry, and the entry.
    fn source(&self, entry: &Entry) -> String {
        let text = &self.tree.files[entry.file].text;
        let mark = if entry.kind == Kind::Declared { "//" } else { "--" };
        let mut first = entry.first() - 1;
        while first > 0 && text[first - 1].trim_start().starts_with(mark) {
            first -= 1;
        }
        text[first..entry.last()].join("\n")
    }

    /// The comment that a file of specs or proofs opens with.
    fn opening(&self, file: usize) -> String {
        let lines = self.tree.files[file].text.iter().take_while(|line| line.starts_with("--"));
        lines.map(|line| format!("{line}\n")).collect()
    }

    pub fn text(&self) -> String {
        let mut out = String::new();
        for file in self.by_file() {
            let path = &self.tree.files[file[0].file].path;
            let _ = writeln!(out, "{path}\n{}", "=".repeat(path.chars().count()));
            let _ = writeln!(out, "{}", self.opening(file[0].file));
            for entry in file {
                let _ = writeln!(out, "{}\n", self.source(entry));
            }
        }
        out.push_str(&self.foot());
        out
    }
}
