//! The makers: every line is in the format, the seed decides everything, and
//! nothing that is counted stays at zero.

use second::makers::cases::random_case;
use second::makers::decks::{deck_case, random_deck};
use second::makers::lines::all_lines;
use second::trial::digest::digest;
use second::trial::line::Line;
use second::trial::stream::{count_cases, run_cases};

fn cases(seed: u64, number: u64) -> String {
    (0..number).map(|n| random_case(seed, n).text()).collect()
}

fn deck_cases(seed: u64, number: u64) -> String {
    (0..number).map(|n| deck_case(seed, n)).collect()
}

#[test]
fn digests_by_hand() {
    assert_eq!(digest(&[]), 0x811C_9DC5);
    assert_eq!(digest(&[0]), 0x050C_5D1F);
    assert_eq!(digest(&[1]), 0x060C_5EB2);
}

#[test]
fn every_line_reads_back_as_itself() {
    let text = all_lines().text() + &cases(5, 4_000) + &deck_cases(5, 200);
    for line in text.lines() {
        let read = Line::read(line).unwrap_or_else(|error| panic!("{error}: {line}"));
        assert_eq!(read.to_string(), line);
    }
}

/// Lines that the format has not.
const OUTSIDE: [&str; 58] = [
    "",
    " ",
    "walk",
    "walk ",
    "walk  1",
    "walk 1 ",
    "walk +1",
    "walk -1",
    "walk 4294967296",
    "steps 1",
    "memory 66561 0 0",
    "memory 1 256 0",
    "put 0",
    "image 16778241 0 0 0",
    "drive 65536 0 0 0 0",
    "drive 0 256 0 0 0",
    "drive 0 0 256 0 0",
    "drive 0 0 0 256 0",
    "drive 0 0 0 0 2",
    "drive 0 0 0 0",
    "drive 0 0 0 0 0 0",
    "place",
    "place 1 2",
    "place 4294967296",
    "unit",
    "unit 4",
    "unit 0 0",
    "there",
    "there 2",
    "there 1 1",
    "look 0",
    "look 256 0",
    "look 0 4294967296",
    "look 0 0 0",
    "record 40 0 0 0 0 0 0 0 0 0 0",
    "record 0 0 0 0 0 0 0 0 0 0",
    "record 0 0 0 0 0 0 0 0 0 0 0 0",
    "record 0 0 0 0 0 0 0 0 65536 0 0",
    "record 0 0 0 0 0 0 0 0 0 256 0",
    "record 0 0 0 0 0 0 0 0 0 0 256",
    "range 40 0 0 0",
    "range 0 32 0 0",
    "range 0 0 4294967296 0",
    "range 0 0 0 65536",
    "range 0 0 0",
    "range 0 0 0 0 0",
    "spoil 0 10 0",
    "spoil 0 9 256",
    "spoil 0 8 256",
    "spoil 0 7 65536",
    "spoil 0 4 65536",
    "spoil 0 5 256",
    "commands 4294967296",
    "lent 41",
    "picks 256",
    "written 18446744073709551616",
    "Walk 0",
    "comment",
];

#[test]
fn lines_outside_the_format_are_refused() {
    for line in OUTSIDE {
        assert!(Line::read(line).is_err(), "{line:?}");
    }
    let outside = "case 0\nmemory 4 0 0\nput 3 1 2\n";
    assert!(run_cases(outside.as_bytes(), Vec::new()).is_err());
}

#[test]
fn the_seed_decides_everything() {
    assert_eq!(cases(9, 50), cases(9, 50));
    assert_ne!(cases(9, 50), cases(10, 50));
    // More cases of one seed begin with the same cases.
    assert!(cases(9, 60).starts_with(&cases(9, 50)));
    for n in 0..50 {
        let bytes: String = random_deck(4, n).iter().map(|byte| format!(" {byte}")).collect();
        assert_eq!(deck_case(4, n), format!("case {n}\ndeck{bytes}\n"));
    }
}

#[test]
fn nothing_counted_stays_at_zero() {
    let random = cases(1, 3_000);
    assert!(random.len() < 4_000_000, "{} bytes of cases", random.len());
    let text = all_lines().text() + &random + &deck_cases(1, 300);
    let tally = count_cases(text.as_bytes()).expect("the makers keep to the format");
    for (name, count) in tally.rows() {
        assert!(count > 0, "{name} never came up");
    }
}

/// The worked cases of docs/CASES.md. Their digests were worked out apart from
/// this program.
const WORKED_CASE: &str = "case 1
drive 0 0 1 1 0
memory 1024 0 0
image 1024 7 1 0
put 0 34 0 0 0 0 0 0 0 0 1 0 0 0 1 0 0 0 0 2 0 0 0 0 32
put 32 1 0 0 0 0 0 0 0 0 1 0 0 0 0 0 0 0 0 2 0
walk 0
steps
pick 1
pick 0
fields 0
picks 0 1 1
look 0 0
look 0 1
look 0 2
view 7
written 5
";

const WORKED_ANSWERS: &str = "case 1
walk 0 2 90fa2ead 743661c5 5e8ecead
steps 2
pick 6 90fa2ead 743661c5 5e8ecead
pick 0 7344e078 743661c5 1b96fa80
fields 0 1 1 0 2 0 0 1 1 0 0 0 1 0 0 1 512 32
picks 0 1 2 1 d20f30c3 498e2dc5 ad1a6c33
look 0 512 cd3565c5
look 0 512 cd3565c5
look 10 0 811c9dc5
view 2 0 0 0 0 0 0 0 0 0 0 0 0 0 0 0 0 0 0
written 0 0 1 d20f30c3 498e2dc5 ad1a6c33
";

const LIST_CASE: &str = "case 2
drive 0 0 1 1 0
memory 1024 0 0
image 1024 7 1 1
put 0 18 0 0 0 0 0 16 0 0 1 0 0 0 1 0 0 0 0 0 64
put 64 0 100 229 214 0 0 2 0 1 156 229 214 0 0 1 0
walk 0
pick 0
record 1 32 64 1 0 1 2 0 2 0 0
range 1 0 512 100
range 1 1 256 411
commands 2
pick 1
range 1 1 256 412
pick 1
";

const LIST_ANSWERS: &str = "case 2
walk 0 1 b22d0ee7 ce2459c5 f1f39bb7
pick 0 15d0ad0c ce2459c5 aefbc78a
pick 9 15d0ad0c ce2459c5 86c6d941
pick 0 4f187459 ce2459c5 12a37c3f
";

const FITTED_CASE: &str = "case 3
drive 0 0 1 1 0
memory 1024 0 0
image 1024 7 1 0
put 0 2 0 0 9 0 0 0 0 0 2 0 0 0 1 0 0 0 0 2 0
walk 0
put 8 0 1
pick 0
fields 0
record 1 32 512 1 0 1 2 0 0 77 0
commands 2
pick 1
fields 32
";

const FITTED_ANSWERS: &str = "case 3
walk 0 1 017e8575 743661c5 75295b7b
pick 0 db8b261d 743661c5 3231874e
fields 1 1 0 0 2 16 0 1 1 1 0 0 1 0 0 1 512 0
pick 0 9ee1d1b1 743661c5 1e168c18
fields 0 1 0 0 2 0 0 1 1 77 0 0 0 0 0 0 0 0
";

const UNITS_CASE: &str = "case 4
memory 2048 0 0
drive 0 0 1 1 1
image 1024 7 1 0
unit 1
drive 0 0 1 1 0
image 1024 20 1 0
there 1
unit 2
image 5 1 1 1
put 0 33 0 0 0 0 1 0 0 0 1 0 0 0 0 0 0 0 0 2 0 0 0 0 32
put 32 2 0 0 0 0 0 0 0 0 1 0 0 0 0 0 0 0 0 4 0
walk 0
pick 1
fields 32
pick 0
fields 0
look 0 0
look 1 0
look 1 2
look 2 0
look 4 9
unit 1
there 0
pick 0
unit 2
there 1
look 0 0
";

const UNITS_ANSWERS: &str = "case 4
walk 0 2 df3a0abf d9b96158 20d2088f
pick 0 ccd2749a d9b96158 b2557a42
fields 0 1 0 0 2 0 1 1 1 0 0 0 1 0 0 0 1024 0
pick 0 750af665 24a19158 6f5da615
fields 0 1 1 0 1 0 0 1 1 0 0 1 1 0 0 0 512 32
look 0 512 dd3d99c5
look 0 512 4d7705c5
look 10 0 811c9dc5
look 11 0 811c9dc5
look 11 0 811c9dc5
pick 9 750af665 24a19158 6f5da615
look 1 0 811c9dc5
";

/// What a run of cases prints.
fn played(cases: &str) -> String {
    let mut out = Vec::new();
    run_cases(cases.as_bytes(), &mut out).unwrap();
    String::from_utf8(out).unwrap()
}

#[test]
fn the_worked_cases() {
    assert_eq!(played(WORKED_CASE), WORKED_ANSWERS);
    assert_eq!(played(LIST_CASE), LIST_ANSWERS);
    assert_eq!(played(FITTED_CASE), FITTED_ANSWERS);
    assert_eq!(played(UNITS_CASE), UNITS_ANSWERS);
}

/// A range line sets one range alone, and a record line sets all to 0. The
/// digests were worked out apart from this program.
#[test]
fn ranges_in_the_digest() {
    let ground = "case 1\ndrive 0 0 0 0 0\nimage 512 0 0 0\nrecord 1 1 2 3 4 5 6 7 8 9 0\n";
    let ranges = "range 1 0 9 10\nrange 1 31 4294967295 65535\npick 0\n";
    let more = "spoil 1 7 65535\npick 0\nspoil 1 8 255\npick 0\n";
    let again = "record 1 1 2 3 4 5 6 7 8 9 0\npick 0\n";
    let answers = played(&format!("{ground}{ranges}{more}{again}"));
    let tables: Vec<&str> =
        answers.lines().skip(1).filter_map(|line| line.split(' ').last()).collect();
    assert_eq!(tables, ["48d9c633", "b193387f", "9b35fae5", "4393ac7e"]);
}
