//! Each name between backquotes on a page, and what it stands for in the tree. Which kinds of name
//! may stand in a cell goes by the heading of its column.

use crate::markdown::{pieces, spans, Piece};
use crate::tree::{Edit, Folder, Function, Home};
use crate::{Miss, Tree};
use std::collections::BTreeSet;

/// What a page names, and what it names that is not there.
#[derive(Debug, Default)]
pub struct Named {
    /// Those of a column "function".
    pub functions: BTreeSet<Function>,
    pub edits: BTreeSet<Edit>,
    pub misses: Vec<Miss>,
}

/// Words that a page puts between backquotes and that name nothing of the tree.
const PLAIN_WORDS: [&str; 7] =
    ["requires", "ensures", "pub fn", "must-fail/", "specs/", "proofs/", "rt ci"];

/// Reads a page.
pub fn page(path: &str, text: &str, tree: &Tree) -> Named {
    let mut named = Named::default();
    for piece in pieces(text) {
        let mut reader = Reader::new(tree, &piece);
        for (before, span) in spans(piece.text) {
            if let Err(kind) = reader.take(before, span) {
                let what = format!("`{span}` is no {kind}");
                named.misses.push(Miss { path: path.to_string(), line: piece.line, what });
            }
        }
        named.edits.extend(reader.edits);
        if piece.column == Some("function") {
            named.functions.extend(reader.functions);
        }
    }
    named
}

/// Whether a span is what its column asks for; if not, what that would be.
type Found = Result<(), &'static str>;

fn found(is: bool, kind: &'static str) -> Found {
    is.then_some(()).ok_or(kind)
}

/// Reads the spans of one piece, from left to right: a bare name goes by the crate or the module of
/// the one before it, or by the crates in the heading.
struct Reader<'a> {
    tree: &'a Tree,
    piece: &'a Piece<'a>,
    in_heading: Vec<&'a str>,
    krate: Option<&'a str>,
    module: String,
    /// The last function, for `first` .. `last`.
    last: Option<usize>,
    /// The crate right before, as in `viewer`'s.
    owner: Option<&'a str>,
    parameters: Vec<&'a str>,
    functions: Vec<Function>,
    edits: Vec<Edit>,
}

impl<'a> Reader<'a> {
    fn new(tree: &'a Tree, piece: &'a Piece<'a>) -> Reader<'a> {
        let words = spans(piece.section).into_iter().map(|(_, span)| span);
        let in_heading: Vec<&str> = words.filter(|word| tree.is_crate(word)).collect();
        let of_row = spans(piece.first).into_iter();
        Reader {
            tree,
            piece,
            krate: in_heading.first().copied(),
            in_heading,
            module: String::new(),
            last: None,
            owner: None,
            parameters: of_row.flat_map(|(_, span)| parameters(span)).collect(),
            functions: Vec::new(),
            edits: Vec::new(),
        }
    }

    fn take(&mut self, before: &str, span: &'a str) -> Found {
        if !before.starts_with("'s") {
            self.owner = None;
        }
        let taken = match self.piece.column {
            Some("function") => self.function(before, span, true),
            Some("contract") => self.function(before, span, false),
            Some("the reply is") => self.reply(span),
            Some("definition") => self.definition(span),
            Some("promise") => self.promise(span),
            Some("must-fail") => self.edit(span),
            Some("test") => found(!span.contains('/') || self.path(span), "file"),
            _ => self.any(before, span),
        };
        self.owner = self.tree.crates.get(span).map(String::as_str);
        taken
    }

    /// A path, with `*` for any name.
    fn path(&self, span: &str) -> bool {
        match span.split_once('*') {
            None => self.tree.has_path(span),
            Some((before, _)) => self.tree.has_path(before),
        }
    }

    /// A function: `crate::module::name`, or by what stands before it. `named` where the cell names
    /// the functions of its section's crate, each with its module; else the one of that name in the
    /// crate will do, or the first one anywhere.
    fn function(&mut self, before: &str, span: &'a str, named: bool) -> Found {
        let path = span.split('(').next().unwrap_or("").trim();
        if path.is_empty() {
            return Ok(());
        }
        let mut words: Vec<&'a str> = path.split("::").collect();
        if words.len() > 1 && self.tree.is_crate(words[0]) {
            self.krate = Some(words.remove(0));
            self.module.clear();
        }
        let name = words.pop().unwrap_or("");
        if !words.is_empty() {
            self.module = words.join("::");
        }
        let all = &self.tree.functions;
        let in_crate = |f: &Function| Some(f.krate.as_str()) == self.krate;
        let in_module = |f: &Function| in_crate(f) && (f.exported || f.module == self.module);
        if name == "*" {
            return found(all.iter().any(in_crate), "public function");
        }
        let first =
            |is: &dyn Fn(&Function) -> bool| all.iter().position(|f| f.name == name && is(f));
        let mut at = first(&in_module);
        if at.is_none() && !named && words.is_empty() {
            at = first(&in_crate).or_else(|| first(&|_| true));
        }
        let at = at.ok_or("public function")?;
        let from = self.last.filter(|last| before.trim() == ".." && *last < at).unwrap_or(at);
        let same = |f: &&Function| f.krate == all[at].krate && f.module == all[at].module;
        self.functions.extend(all[from..=at].iter().filter(same).cloned());
        self.last = Some(at);
        Ok(())
    }

    /// What a reply is: terms of definitions, as `sector_number d cylinder head sector`.
    fn reply(&mut self, span: &'a str) -> Found {
        for head in heads(span) {
            let is_plain = head.chars().count() == 1
                || head.starts_with(|letter: char| letter.is_ascii_digit())
                || self.parameters.contains(&head);
            let is_there = is_plain || self.definition(head).is_ok() || self.promise(head).is_ok();
            found(is_there, "definition or promise")?;
        }
        Ok(())
    }

    /// A definition: `name`, `File`, `File.name` or `crate/specs/File.name`.
    fn definition(&self, span: &str) -> Found {
        found(self.name_in(span, |folder| folder == Folder::Specs), "definition in specs/")
    }

    /// A promise, stated or proved: written as a definition is. With `viewer`'s before it, in that
    /// crate.
    fn promise(&self, span: &str) -> Found {
        let is_there = self.name_in(span, |folder| folder != Folder::Source);
        found(is_there || self.tree.is_crate(span), "promise in specs/ or proofs/")
    }

    fn name_in(&self, span: &str, fits: impl Fn(Folder) -> bool) -> bool {
        let (folders, rest) = span.rsplit_once('/').unwrap_or(("", span));
        let (mut krate, mut folder) = (self.owner, None);
        if !folders.is_empty() {
            let (of, kind) =
                folders.trim_start_matches("crates/").split_once('/').unwrap_or_default();
            krate = Some(of);
            folder = match kind {
                "specs" => Some(Folder::Specs),
                "proofs" => Some(Folder::Proofs),
                _ => return false,
            };
        }
        let here = |home: &Home| {
            krate.map_or(true, |of| of == home.krate)
                && folder.map_or(true, |kind| kind == home.folder)
                && fits(home.folder)
        };
        let rest = rest.strip_suffix(".antt").unwrap_or(rest);
        match rest.split_once('.') {
            Some((file, name)) => self.tree.has_name(name, |home| home.file == file && here(home)),
            None => {
                let is_file = self.tree.homes.iter().any(|home| home.file == rest && here(home));
                is_file || self.tree.has_name(rest, here)
            }
        }
    }

    /// An edit: `crate/edit`, or one of the crate before it, or of a crate in the heading.
    fn edit(&mut self, span: &'a str) -> Found {
        let (crates, name) = match span.split_once('/') {
            Some((krate, name)) => (vec![krate], name),
            None => (self.krate.into_iter().chain(self.in_heading.iter().copied()).collect(), span),
        };
        for krate in crates {
            let edit = Edit { krate: krate.to_string(), name: name.to_string() };
            if self.tree.edits.contains(&edit) {
                self.krate = Some(krate);
                self.edits.push(edit);
                return Ok(());
            }
        }
        Err("edit")
    }

    /// Anything that the tree has.
    fn any(&mut self, before: &str, span: &'a str) -> Found {
        let is_known = PLAIN_WORDS.contains(&span)
            || span.chars().count() == 1
            || self.parameters.contains(&span)
            || self.tree.is_crate(span)
            || self.path(span)
            || self.tree.is_module(span)
            || self.tree.is_test(span)
            || self.name_in(span, |_| true)
            || self.edit(span).is_ok()
            || self.function(before, span, false).is_ok();
        found(is_known, "edit, promise, definition, function, module or file")
    }
}

/// The parameters in a span such as `pick(memory, place)`.
fn parameters(span: &str) -> Vec<&str> {
    let inside = span.split_once('(').map_or("", |(_, rest)| rest.trim_end_matches(')'));
    inside.split([',', ' ']).filter(|name| !name.is_empty()).collect()
}

/// The words of a term that stand for something defined: the first, and each first one in brackets.
fn heads(span: &str) -> Vec<&str> {
    let words = span.split(' ').filter(|word| !word.is_empty()).enumerate();
    let heads = words.filter(|(at, word)| *at == 0 || word.starts_with('('));
    heads.map(|(_, word)| word.trim_matches(['(', ')'])).collect()
}
