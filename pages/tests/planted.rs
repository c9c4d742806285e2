//! A small tree whose pages hold, and one change of it for each kind of miss that must be found.

use pages::{misses, File, Tree};

const RULES: &str = "\
# The rules
## Walk: reading a chain
- **Walk 1.** It starts at an address.
| rule | number | given exactly when |
|---|---|---|
| Walk 2 | 1 | sizes are wrong |
| Walk 3 | 2 | the address is odd |
";

const CONTRACTS: &str = "\
# Contracts
A contract names a definition of `crates/base/specs`.
## `base`
| function | for | the reply is | wrong answers ruled out |
|---|---|---|---|
| `walk(m, start)` | the walk | `walk_of m start` | an odd start taken (`odd_taken`) |
| `field::first` .. `field::third` `(m, at)`, three fields | a field | `Fields.first m (place at)` | as `base::walk` |
";

const PROMISES: &str = "\
# Promises
| rule | definition | contract | promise | must-fail | test |
|---|---|---|---|---|---|
| Walk 1 to 3: the walk | `Walk.walk_of`, `place` | `base::walk` | `base`'s `walk_is_right` | `base/odd_taken` | `docs/RULES.md` |
";

fn files() -> Vec<File> {
    let walk = "#![tactic(auto)]\n\n\
                pub fn walk(m: &[u8], start: u32) -> u8\n    \
                ensures answer { result ≡ walk_of m.now start }\n{\n    0\n}\n";
    let field = "ghost use Rattle.base.specs.Fields.{first};\n\n\
                 pub fn first(m: &[u8], at: u32) -> u8\n    \
                 ensures { result ≡ first m.now at }\n{\n    0\n}\n\
                 pub fn second(m: &[u8], at: u32) -> u8 {\n    0\n}\n\
                 pub(crate) fn inside() {}\n\
                 #[unsafe(no_mangle)]\npub extern \"C\" fn third(m: &[u8], at: u32) -> u8 {\n    0\n}\n";
    let specs = "-- The walk: Walk 1\nabbrev pub walk_of : List ℕ → ℕ → ℕ\nwalk_of m a = a\n\
                 pub record Reply : Type 0 where\n  pub number : ℕ\n";
    let fields = "module _ (m : List ℕ) where\n  abbrev pub first : ℕ\n  first = 0\n\n\
                  unfoldable pub place : ℕ → ℕ\nunfolding walk_of\nplace a = a\n";
    vec![
        File::new("README.md", "It walks chains (Walk 1 and 2)."),
        File::new("crates/base/src/lib.rt", walk),
        File::new("crates/base/src/field.rt", field),
        File::new("crates/base/specs/Walk.antt", specs),
        File::new("crates/base/specs/Fields.antt", fields),
        File::new("crates/base/proofs/Walk.antt", "pub walk_is_right : (a : ℕ) → a ≡ a\n"),
        File::new("crates/base/must-fail/odd_taken.edit", "file: src/lib.rt\n"),
        File::new("docs/RULES.md", RULES),
        File::new("docs/CONTRACTS.md", CONTRACTS),
        File::new("docs/PROMISES.md", PROMISES),
    ]
}

/// What is missing after a change of one file.
fn after(path: &str, old: &str, new: &str) -> Vec<String> {
    let mut files = files();
    let file = files.iter_mut().find(|file| file.path == path).expect("a file of the tree");
    assert!(file.text.contains(old), "{path} has no {old:?}");
    file.text = file.text.replacen(old, new, 1);
    let tree = Tree::of(&files);
    misses(&files, &tree).iter().map(ToString::to_string).collect()
}

#[test]
fn pages_that_hold_have_no_miss() {
    assert_eq!(after("README.md", "It walks", "It walks"), Vec::<String>::new());
}

/// Each change, and the one line that it must bring.
#[test]
fn every_kind_of_miss_is_found() {
    let changes = [
        // what a page names is not there
        ("docs/CONTRACTS.md", "(`odd_taken`)", "(`odd_take`)", "docs/CONTRACTS.md:6: `odd_take`"),
        (
            "docs/CONTRACTS.md",
            "as `base::walk`",
            "as `base::wal`",
            "docs/CONTRACTS.md:7: `base::wal`",
        ),
        (
            "docs/CONTRACTS.md",
            "`walk_of m",
            "`walks_of m",
            "docs/CONTRACTS.md:6: `walks_of m start`",
        ),
        (
            "docs/CONTRACTS.md",
            "(place at)",
            "(spot at)",
            "docs/CONTRACTS.md:7: `Fields.first m (spot",
        ),
        (
            "docs/CONTRACTS.md",
            "crates/base/specs",
            "crates/bass/specs",
            "docs/CONTRACTS.md:2: `crates",
        ),
        (
            "docs/PROMISES.md",
            "`Walk.walk_of`",
            "`Fields.walk_of`",
            "docs/PROMISES.md:4: `Fields.walk_of`",
        ),
        (
            "docs/PROMISES.md",
            "`place`",
            "`number`",
            "docs/PROMISES.md:4: `number` is no definition",
        ),
        (
            "docs/PROMISES.md",
            "`base::walk`",
            "`base::inside`",
            "docs/PROMISES.md:4: `base::inside`",
        ),
        (
            "docs/PROMISES.md",
            "walk_is_right",
            "walk_is_wrong",
            "docs/PROMISES.md:4: `walk_is_wrong`",
        ),
        ("docs/PROMISES.md", "base/odd_taken", "base/even_taken", "docs/PROMISES.md:4: `base/even"),
        (
            "docs/PROMISES.md",
            "`docs/RULES.md`",
            "`docs/RULE.md`",
            "docs/PROMISES.md:4: `docs/RULE.md`",
        ),
        // what must be named is not
        (
            "docs/CONTRACTS.md",
            "`field::first` .. `field::third`",
            "`field::first`, `field::third`",
            "docs/CONTRACTS.md: the public function base::field::second is not named",
        ),
        (
            "crates/base/src/lib.rt",
            "pub fn walk",
            "pub fn run() {}\npub fn walk",
            "docs/CONTRACTS.md: the public function base::run is not named",
        ),
        (
            "crates/base/src/lib.rt",
            "pub fn walk",
            "pub enum Kind { Of }\nimpl<'a> Kind<'a> {\n    pub fn told(self) {}\n}\npub fn walk",
            "docs/CONTRACTS.md: the public function base::Kind::told is not named",
        ),
        (
            "docs/PROMISES.md",
            "Walk 1 to 3",
            "Walk 1, 2",
            "docs/RULES.md:7: Walk 3 is named neither",
        ),
        // rules
        ("README.md", "Walk 1 and 2", "Walk 1 and 4", "README.md:1: there is no rule Walk 4"),
        (
            "crates/base/specs/Walk.antt",
            "Walk 1",
            "Walk 9",
            "crates/base/specs/Walk.antt:1: there is",
        ),
        (
            "docs/RULES.md",
            "| Walk 3 |",
            "| Walk 2 |",
            "docs/RULES.md:7: Walk 2 stands in line 6 too",
        ),
        (
            "docs/RULES.md",
            "**Walk 1.**",
            "**Pick 1.**",
            "docs/RULES.md:3: Pick 1 stands in the section",
        ),
    ];
    for (path, old, new, line) in changes {
        let found = after(path, old, new);
        assert!(
            found.iter().any(|miss| miss.starts_with(line)),
            "{path}: {old:?} changed to {new:?} brings no {line:?}, but {found:#?}"
        );
    }
}

#[test]
fn an_edit_that_no_page_names_is_found() {
    let mut files = files();
    files.push(File::new("crates/base/must-fail/new.edit", ""));
    let tree = Tree::of(&files);
    let found: Vec<String> = misses(&files, &tree).iter().map(ToString::to_string).collect();
    assert_eq!(
        found,
        ["docs/CONTRACTS.md: the edit base/new is named neither here nor in docs/PROMISES.md"]
    );
}

/// Numbers that are no citations.
#[test]
fn only_whole_numbers_cite() {
    for text in
        ["Walk 10H", "Walk 6-2", "Walk 4,096", "Walk 1.5", "SideWalk 7", "a-Walk 8", "walk 9"]
    {
        assert_eq!(after("README.md", "It walks chains", text), Vec::<String>::new(), "{text}");
    }
}
