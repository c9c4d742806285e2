//! The rules that docs/RULES.md numbers, and where they are cited: `Walk 8`, `Size 1 to 4`,
//! `Walk 7, 8 and 9`.

use crate::{File, Miss, Tree, DECISIONS, PROMISES, RULES};
use std::collections::{BTreeMap, BTreeSet};
use std::fmt;

/// A rule's word and count.
#[derive(Clone, Debug, PartialEq, Eq, PartialOrd, Ord)]
pub struct Rule {
    pub word: String,
    pub count: usize,
}

impl fmt::Display for Rule {
    fn fmt(&self, out: &mut fmt::Formatter) -> fmt::Result {
        write!(out, "{} {}", self.word, self.count)
    }
}

/// The rules that the page defines, each with its line, and what is wrong with them. A rule begins
/// a line, as `**Walk 3.**` or as the first cell of a row, in the section of its word.
pub fn defined(text: &str) -> (BTreeMap<Rule, usize>, Vec<Miss>) {
    let mut rules = BTreeMap::new();
    let mut wrong = Vec::new();
    let mut section = "";
    for (at, line) in text.lines().enumerate() {
        let number = at + 1;
        if let Some(heading) = line.strip_prefix("## ") {
            section = heading.split(':').next().unwrap_or("");
        }
        let Some(rule) = begins(line) else { continue };
        let mut say = |what| wrong.push(Miss { path: RULES.to_string(), line: number, what });
        if rule.word != section {
            say(format!("{rule} stands in the section {section:?}"));
        } else if let Some(before) = rules.insert(rule.clone(), number) {
            say(format!("{rule} stands in line {before} too"));
        }
    }
    (rules, wrong)
}

/// The rule that a line begins with.
fn begins(line: &str) -> Option<Rule> {
    let line = line.trim_start_matches("- ");
    let name = match line.strip_prefix("**") {
        Some(bold) => bold.split_once(".**")?.0,
        None => line.strip_prefix("| ")?.split_once(" |")?.0,
    };
    let (word, count) = name.split_once(' ')?;
    let is_word = word.starts_with(|letter: char| letter.is_ascii_uppercase())
        && word.chars().all(|letter| letter.is_ascii_alphabetic());
    let count = count.parse().ok()?;
    is_word.then(|| Rule { word: word.to_string(), count })
}

/// The rules that a line of text cites. A range cites all that lie in it.
pub fn cited<'a>(line: &str, words: impl Iterator<Item = &'a str>) -> Vec<Rule> {
    let mut found = Vec::new();
    for word in words {
        for (at, _) in line.match_indices(word) {
            let joined = line[..at].ends_with(|letter: char| {
                letter.is_alphanumeric() || letter == '_' || letter == '-' || letter == '.'
            });
            let Some(rest) = line[at + word.len()..].strip_prefix(' ') else { continue };
            if joined {
                continue;
            }
            let Some((mut count, mut rest)) = number(rest) else { continue };
            found.push(Rule { word: word.to_string(), count });
            while let Some((next, after, is_range)) = further(rest) {
                let first = if is_range { count + 1 } else { next };
                found.extend((first..=next).map(|count| Rule { word: word.to_string(), count }));
                (count, rest) = (next, after);
            }
        }
    }
    found
}

/// A whole number at the start of a text, not a part of `10H`, `6-2` or `4,096`; and what follows.
fn number(text: &str) -> Option<(usize, &str)> {
    let end = text.find(|letter: char| !letter.is_ascii_digit()).unwrap_or(text.len());
    let (digits, rest) = text.split_at(end);
    let mut after = rest.chars();
    let (next, then) = (after.next().unwrap_or(' '), after.next().unwrap_or(' '));
    let goes_on = next.is_alphanumeric()
        || next == '_'
        || (matches!(next, '-' | ',' | '.') && then.is_ascii_digit());
    if goes_on {
        return None;
    }
    Some((digits.parse().ok()?, rest))
}

/// A further number of the same citation, what follows it, and whether it ends a range.
fn further(text: &str) -> Option<(usize, &str, bool)> {
    for (joint, is_range) in [(", ", false), (" and ", false), (" to ", true)] {
        if let Some((count, rest)) = text.strip_prefix(joint).and_then(number) {
            return Some((count, rest, is_range));
        }
    }
    None
}

/// Rules that are cited and not there, and rules that no row of the pages names.
pub fn misses(files: &[File], tree: &Tree) -> Vec<Miss> {
    let mut misses = Vec::new();
    let mut named = BTreeSet::new();
    let words: BTreeSet<&str> = tree.rules.keys().map(|rule| rule.word.as_str()).collect();
    for file in files {
        if file.path == RULES {
            misses.extend(defined(&file.text).1);
        }
        for (at, line) in file.text.lines().enumerate() {
            for rule in cited(line, words.iter().copied()) {
                if !tree.rules.contains_key(&rule) {
                    let what = format!("there is no rule {rule} in {RULES}");
                    misses.push(Miss { path: file.path.clone(), line: at + 1, what });
                }
                if file.path == PROMISES || file.path == DECISIONS {
                    named.insert(rule);
                }
            }
        }
    }
    for (rule, line) in &tree.rules {
        if !named.contains(rule) {
            let what = format!("{rule} is named neither in {PROMISES} nor in {DECISIONS}");
            misses.push(Miss { path: RULES.to_string(), line: *line, what });
        }
    }
    misses
}
