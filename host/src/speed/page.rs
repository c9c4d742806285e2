//! The page of results, docs/SPEED.md: a row for each work, with times, ratios, goal and verdict, and
//! the count of copies.

use crate::copies;
use crate::copies::Counted;
use crate::speed::clock::{Times, ROUNDS};
use crate::speed::works::{Against, Work};
use std::process::Command;

/// A work, and the times of its sides, in the same order.
pub struct Row {
    pub work: Work,
    pub times: Vec<Times>,
}

impl Row {
    fn other(&self, against: Against) -> &Times {
        match against {
            Against::Copy => &self.times[0],
            Against::Ordinary => &self.times[2],
        }
    }

    /// The firmware's time, as so many times another side's.
    pub fn ratio(&self, against: Against) -> f64 {
        self.times[1].ratio(self.other(against))
    }

    pub fn met(&self) -> bool {
        self.work.goal.is_none_or(|(against, goal)| self.ratio(against) <= goal)
    }

    fn spread(&self) -> f64 {
        self.work.goal.map_or(0.0, |(against, _)| self.times[1].spread(self.other(against)))
    }

    fn goal(&self) -> String {
        match self.work.goal {
            None => "(no goal)".to_string(),
            Some((Against::Copy, goal)) => format!("{goal:.2} of the copy"),
            Some((Against::Ordinary, goal)) => format!("{goal:.2} of ordinary"),
        }
    }

    fn verdict(&self) -> &'static str {
        match self.work.goal {
            None => "",
            Some(_) if self.met() => " met",
            Some(_) => " **missed**",
        }
    }

    /// What is said of a row that missed its goal: by how much it is above what is allowed.
    pub fn missed(&self) -> Option<String> {
        let (against, goal) = self.work.goal.filter(|_| !self.met())?;
        let allowed = goal * self.other(against).median();
        let above = time(Some(self.times[1].median() - allowed));
        Some(format!(
            "{}: {:.2}, where {} is the goal: {above} too long",
            self.work.name,
            self.ratio(against),
            self.goal(),
        ))
    }

    fn line(&self) -> String {
        let median = |side: usize| self.times.get(side).map(Times::median);
        let [copy, firmware, ordinary, second] = [0, 1, 2, 3].map(median).map(time);
        format!(
            "| {} | {firmware} | {} | {copy} | {:.2} | {ordinary} | {:.2} | {}{} | {second} |",
            self.work.name,
            self.work.copied,
            self.ratio(Against::Copy),
            self.ratio(Against::Ordinary),
            self.goal(),
            self.verdict(),
        )
    }
}

fn time(nanoseconds: Option<f64>) -> String {
    match nanoseconds {
        None => "not timed".to_string(),
        Some(short) if short < 1e3 => format!("{short:.1} ns"),
        Some(middle) if middle < 1e6 => format!("{:.2} us", middle / 1e3),
        Some(long) => format!("{:.2} ms", long / 1e6),
    }
}

/// The table of all rows.
pub fn table(rows: &[Row]) -> String {
    let mut text = String::from(
        "| work | firmware | plain copy of | takes | firmware / copy | ordinary Rust | \
         firmware / ordinary | goal | second program |\n|---|---|---|---|---|---|---|---|---|\n",
    );
    for row in rows {
        text += &row.line();
        text.push('\n');
    }
    text
}

/// What a command prints, or nothing where it is not there.
fn said(command: &str, words: &[&str]) -> Option<String> {
    let ran = Command::new(command).args(words).output().ok().filter(|ran| ran.status.success())?;
    String::from_utf8(ran.stdout).ok()
}

/// The value of a line `NAME: VALUE`.
fn value<'a>(text: &'a str, name: &str) -> Option<&'a str> {
    text.lines().find_map(|line| {
        let (word, value) = line.split_once(':')?;
        (word.trim().eq_ignore_ascii_case(name)).then_some(value.trim())
    })
}

/// The kind of machine: its architecture, the processor's model if the system tells it, and the
/// compilers.
fn machine() -> String {
    let cpuinfo = std::fs::read_to_string("/proc/cpuinfo").unwrap_or_default();
    let lscpu = said("lscpu", &[]).unwrap_or_default();
    let model = value(&cpuinfo, "model name").or_else(|| value(&lscpu, "model name"));
    let caches = ["L1d cache", "L2 cache"]
        .iter()
        .filter_map(|name| Some(format!(", {name} {}", value(&lscpu, name)?)))
        .collect::<String>();
    let compilers = [("rustc", "--version"), ("rt", "version")]
        .iter()
        .filter_map(|(command, word)| said(command, &[word]))
        .map(|version| format!("; {}", version.trim()))
        .collect::<String>();
    let model = model.unwrap_or("model not told");
    format!("{}, {model}{caches}{compilers}", std::env::consts::ARCH)
}

/// What a profile shows of the goals that are missed. It is written by hand, of the code as it is
/// measured, so whoever changes that code empties it or makes a new profile; empty, it is left out.
const PROFILE: &str = "";

/// What is to be known of the row of 128 sectors, on the code as it is measured: written by hand, like
/// the profile.
const EDGE: &str = "";

/// By how much goals are missed, and what a profile shows of it.
fn misses(rows: &[Row]) -> String {
    let missed: Vec<String> = rows.iter().filter_map(Row::missed).collect();
    if missed.is_empty() {
        return String::new();
    }
    format!("- Missed: {}.{PROFILE}\n", missed.join("; "))
}

/// The whole page.
pub fn page(rows: &[Row], counted: &[Counted]) -> String {
    let date = said("date", &["-u", "+%Y-%m-%d"]).unwrap_or_default();
    let missed = rows.iter().filter(|row| !row.met()).count();
    let goals = rows.iter().filter(|row| row.work.goal.is_some()).count();
    let spread = rows.iter().map(Row::spread).fold(0.0, f64::max);
    let table = table(rows);
    format!(
        "# How fast the firmware is\n\n\
         `tools/speed` measures and writes this page. Measured on {} ({}); {} of {goals} goals met.\n\n\
         {table}\n\
         - Times are for one unit of the work: a run, a pick, a walk; 1,000 ns are 1 us, a millionth of a second. They \
         are the fastest of many batches in a round, and the median of {ROUNDS} rounds; the sides take turns on the same \
         memory and images, which are new in each round. A ratio is the median of the rounds' own ratios. In every row with \
         a goal the middle half of them lies within {:.1} %.\n\
         - The firmware is target/native/libfirmware.a, called from Rust.\n\
         - The chain has 32 transfers, reads and writes in turn, of 1, 8 or 128 sectors each. Memory has 65,536 bytes, \
         which 128 sectors fill, so from 8 sectors on commands share their data area. A run tests sizes and table, moves \
         every sector and closes every command; the copy only moves the sectors. At 128 sectors the data of every command \
         lies over all IOPBs, so the next command reads status bytes that were posted just before: ordinary Rust without its \
         close takes as long there as the copy, and with it 3 to 5 % longer. {EDGE}Places in turn: all picks of a place \
         before those of the next, since commands of 128 sectors all wait for each other.\n\
         - The ranges of a link list are of one length, and fill an area of the command's own, the last of the area \
         first; the copy moves the whole area at once. At 8 sectors in 4 ranges they have 1,024 bytes each, at 1 sector in \
         32 ranges 16 bytes. In the row with each list's ranges between the others', no two commands share a byte, but \
         only their ranges tell it, pair by pair; that row has no goal.\n\
         - There is one drive, unit 0, and units 1 to 3 are absent, but in the two rows over four drives: there the \
         commands take the units in turn, and four that follow each other name the same sector of four drives. These two \
         rows have no goal of their own.\n\
         - \"Ordinary Rust\" is host/src/ordinary.rs: the same replies with no proofs, written for speed as far as it \
         stays easy to read; it says what faster form was left out. The second program is second/, which is plain and \
         slow on purpose.\n\
         {}\n\
         ## How often a table is copied\n\n\
         `tools/copies` counts it in the compiled module, along the way through each function that has most: all bytes of a \
         table go from one place to another. None is allowed. Fills are told beside it: all bytes of a table are set to one value. What is seen and what is not: docs/DECISIONS.md.\n\n\
         {}",
        date.trim(),
        machine(),
        goals - missed,
        100.0 * spread,
        misses(rows),
        copies::table(counted),
    )
}
