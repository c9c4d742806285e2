//! Plays the stored cases on a board, one by one, for tests.

use host::boards::Board;
use host::player::play_cases_on;
use std::path::Path;

/// An image that is longer takes long to digest after each call.
const LONG_IMAGE: u64 = 200_000;

/// A stored file, cut into its cases.
fn stored(name: &str) -> Vec<String> {
    let path = Path::new(env!("CARGO_MANIFEST_DIR")).join("cases").join(name);
    let text = std::fs::read_to_string(&path);
    let text = text.unwrap_or_else(|error| panic!("{}: {error}", path.display()));
    let mut cases: Vec<String> = Vec::new();
    for line in text.split_inclusive('\n') {
        match cases.last_mut() {
            Some(case) if !line.starts_with("case ") => case.push_str(line),
            _ => cases.push(line.to_string()),
        }
    }
    cases
}

/// The first stored case that a board plays otherwise than it is stored, of those that are taken.
pub fn found_by(board: &Board, taken: fn(&str) -> bool) -> Option<String> {
    let (cases, expected) = (stored("stored.cases"), stored("stored.expected"));
    assert_eq!(cases.len(), expected.len(), "a case has no stored answer");
    let mut both = cases.into_iter().zip(expected).filter(|(case, _)| taken(case));
    let found = both.find(|(case, expected)| {
        let mut printed = Vec::new();
        play_cases_on(board, case.as_bytes(), &mut printed).expect("a stored case can be played");
        printed != expected.as_bytes()
    });
    found.map(|(case, _)| case)
}

/// Whether a case is quickly played.
pub fn has_short_images(case: &str) -> bool {
    let lengths = case.lines().filter_map(|line| line.strip_prefix("image ")?.split(' ').next());
    lengths.map(|length| length.parse::<u64>().expect("a length")).all(|long| long < LONG_IMAGE)
}
