//! What the tree has: crates, public functions, must-fail edits, names of definitions and promises,
//! rules.

use crate::{rules, File};
use std::collections::{BTreeMap, BTreeSet};
use std::fmt;

/// A public function of a crate; `module` is empty for the crate's root. That of a type has the type
/// after its module: `make::Viewer`.
#[derive(Clone, Debug, PartialEq, Eq, PartialOrd, Ord)]
pub struct Function {
    pub krate: String,
    pub module: String,
    pub name: String,
    /// Whether C can call it. It is then known by its name alone.
    pub exported: bool,
}

impl fmt::Display for Function {
    fn fmt(&self, out: &mut fmt::Formatter) -> fmt::Result {
        match self.module.as_str() {
            "" => write!(out, "{}::{}", self.krate, self.name),
            module => write!(out, "{}::{module}::{}", self.krate, self.name),
        }
    }
}

/// A must-fail edit.
#[derive(Clone, Debug, PartialEq, Eq, PartialOrd, Ord)]
pub struct Edit {
    pub krate: String,
    pub name: String,
}

impl fmt::Display for Edit {
    fn fmt(&self, out: &mut fmt::Formatter) -> fmt::Result {
        write!(out, "{}/{}", self.krate, self.name)
    }
}

/// The folder of a crate in which a name is defined.
#[derive(Clone, Copy, Debug, PartialEq, Eq, PartialOrd, Ord)]
pub enum Folder {
    Specs,
    Proofs,
    Source,
}

/// Where a name is defined: the crate, the folder, the file without its end.
#[derive(Clone, Debug, PartialEq, Eq, PartialOrd, Ord)]
pub struct Home {
    pub krate: String,
    pub folder: Folder,
    pub file: String,
}

#[derive(Debug, Default)]
pub struct Tree {
    /// The paths of all files, and of the folders that they lie in.
    pub paths: BTreeSet<String>,
    pub crates: BTreeSet<String>,
    /// In the order in which they stand in the source.
    pub functions: Vec<Function>,
    pub edits: BTreeSet<Edit>,
    /// Each name with all its homes.
    pub names: BTreeMap<String, Vec<Home>>,
    /// The files that hold definitions and proofs.
    pub homes: BTreeSet<Home>,
    /// Each rule with the line where it stands in the page of rules.
    pub rules: BTreeMap<rules::Rule, usize>,
}

impl Tree {
    pub fn of(files: &[File]) -> Tree {
        let mut tree = Tree::default();
        for file in files {
            tree.add_paths(&file.path);
            let words: Vec<&str> = file.path.split('/').collect();
            let ["crates", krate, folder, rest @ ..] = words.as_slice() else { continue };
            tree.crates.insert(krate.to_string());
            let rest = rest.join("/");
            match (*folder, rest.rsplit_once('.')) {
                ("src", Some((module, "rt"))) => tree.add_source(krate, module, &file.text),
                ("specs", Some((name, "antt"))) => {
                    tree.add_names(krate, Folder::Specs, name, &file.text)
                }
                ("proofs", Some((name, "antt"))) => {
                    tree.add_names(krate, Folder::Proofs, name, &file.text)
                }
                ("must-fail", Some((name, "edit"))) => {
                    let edit = Edit { krate: krate.to_string(), name: name.to_string() };
                    tree.edits.insert(edit);
                }
                _ => {}
            }
        }
        let page = files.iter().find(|file| file.path == crate::RULES);
        tree.rules = rules::defined(page.map_or("", |file| &file.text)).0;
        tree
    }

    fn add_paths(&mut self, path: &str) {
        self.paths.insert(path.to_string());
        for (at, _) in path.match_indices('/') {
            self.paths.insert(path[..at].to_string());
        }
    }

    fn add_name(&mut self, name: &str, home: &Home) {
        self.names.entry(name.to_string()).or_default().push(home.clone());
    }

    /// Public functions, those of types among them, structs and enums of a source file.
    fn add_source(&mut self, krate: &str, module: &str, text: &str) {
        let module = if module == "lib" || module == "main" { "" } else { module };
        let home =
            Home { krate: krate.to_string(), folder: Folder::Source, file: module.to_string() };
        let module = module.replace('/', "::");
        let mut of_type = "";
        for line in text.lines() {
            let plain_type = line.strip_prefix("pub struct ").or(line.strip_prefix("pub enum "));
            if let Some(rest) = plain_type {
                self.add_name(word(rest), &home);
            }
            if line.starts_with("impl") {
                of_type = implemented(line);
            } else if line.starts_with('}') {
                of_type = "";
            }
            let plain = line.strip_prefix("pub fn ");
            let exported = line.strip_prefix("pub extern \"C\" fn ");
            let method = line.strip_prefix("    pub fn ").filter(|_| !of_type.is_empty());
            if let Some(rest) = plain.or(exported).or(method) {
                let parts = [module.as_str(), method.map_or("", |_| of_type)];
                let named: Vec<&str> = parts.into_iter().filter(|part| !part.is_empty()).collect();
                self.functions.push(Function {
                    krate: krate.to_string(),
                    module: named.join("::"),
                    name: word(rest).to_string(),
                    exported: exported.is_some(),
                });
            }
        }
    }

    /// The names that a file of definitions or proofs defines: at its top level, or in a `module` of
    /// it that has no name; not the fields of a record.
    fn add_names(&mut self, krate: &str, folder: Folder, file: &str, text: &str) {
        let home = Home { krate: krate.to_string(), folder, file: file.to_string() };
        let mut in_module = false;
        for line in text.lines().filter(|line| !line.is_empty()) {
            let top = !line.starts_with(' ');
            if top {
                in_module = line.starts_with("module ");
            }
            let indent = line.len() - line.trim_start().len();
            if top || (in_module && indent == 2) {
                if let Some(name) = defined_by(line.trim_start()) {
                    self.add_name(name, &home);
                }
            }
        }
        self.homes.insert(home);
    }

    pub fn is_crate(&self, name: &str) -> bool {
        self.crates.contains(name)
    }

    /// A module of a crate's source: `cases::answers`.
    pub fn is_module(&self, path: &str) -> bool {
        let Some((krate, module)) = path.split_once("::") else { return false };
        self.paths.contains(&format!("crates/{krate}/src/{}.rt", module.replace("::", "/")))
    }

    /// A test of the second program, or what makes cases there.
    pub fn is_test(&self, word: &str) -> bool {
        ["tests", "src/makers"]
            .iter()
            .any(|folder| self.paths.contains(&format!("second/{folder}/{word}.rs")))
    }

    /// Whether a path exists, from the root or from `crates/`.
    pub fn has_path(&self, path: &str) -> bool {
        let path = path.trim_end_matches('/');
        self.paths.contains(path) || self.paths.contains(&format!("crates/{path}"))
    }

    /// Whether some home of a name is as asked.
    pub fn has_name(&self, name: &str, is: impl Fn(&Home) -> bool) -> bool {
        self.names.get(name).is_some_and(|homes| homes.iter().any(is))
    }
}

/// The word at the start of a text: a name of Rust or Rattle.
fn word(text: &str) -> &str {
    let end = text.find(|letter: char| !letter.is_alphanumeric() && letter != '_');
    &text[..end.unwrap_or(text.len())]
}

/// The type that a line such as `impl<'a> Viewer<'a> {` is about.
fn implemented(line: &str) -> &str {
    let rest = line.trim_start_matches("impl");
    let rest = match rest.strip_prefix('<') {
        Some(parameters) => parameters.split_once('>').map_or("", |(_, after)| after),
        None => rest,
    };
    word(rest.rsplit_once(" for ").map_or(rest, |(_, of)| of).trim_start())
}

/// The name that a line of a definition's statement begins with: what stands before the colon,
/// after words such as `abbrev pub`, and before parameters.
fn defined_by(line: &str) -> Option<&str> {
    if line.starts_with("--") || line.starts_with("use ") || line.starts_with("module ") {
        return None;
    }
    let mut rest = line;
    while let Some((first, after)) = rest.split_once(' ') {
        if !["abbrev", "unfoldable", "pub", "record", "data", "opaque"].contains(&first) {
            let statement =
                after.starts_with(':') || after.starts_with('(') || after.starts_with('{');
            return (statement && after.contains(':')).then_some(first);
        }
        rest = after;
    }
    None
}
