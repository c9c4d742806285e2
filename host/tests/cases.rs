//! Cases in the format of docs/CASES.md, played over the archive and by the second program: every
//! line printed must be the same.

use host::archive;
use host::declared::{Drive, LentDrives};
use host::player::play_cases;
use second::makers::cases::random_case;
use second::trial::stream::run_cases;
use std::fs::read_to_string;
use std::path::Path;

/// What the archive prints for cases; the error is the player's.
fn by_archive(cases: &str) -> Result<String, String> {
    let mut out = Vec::new();
    play_cases(cases.as_bytes(), &mut out)?;
    Ok(String::from_utf8(out).expect("the player prints text"))
}

/// Plays cases, which must print what the second program prints for them.
fn hold(cases: &str) {
    let mut expected = Vec::new();
    run_cases(cases.as_bytes(), &mut expected).expect("the second program takes the cases");
    same(cases, &String::from_utf8(expected).expect("the second program prints text"));
}

/// Plays a stored file of cases, which must print what is stored beside it.
fn hold_stored(cases: &str, expected: &str) {
    let read = |name: &str| {
        let path = Path::new(env!("CARGO_MANIFEST_DIR")).join(name);
        read_to_string(&path).unwrap_or_else(|error| panic!("{}: {error}", path.display()))
    };
    same(&read(cases), &read(expected));
}

fn same(cases: &str, expected: &str) {
    let given = by_archive(cases).expect("the player takes the cases");
    let lines = given.lines().zip(expected.lines());
    for (number, (mine, its)) in lines.enumerate() {
        assert_eq!(mine, its, "line {} of the output", number + 1);
    }
    assert_eq!(given.len(), expected.len(), "one of the two prints more");
}

#[test]
fn random_cases() {
    hold(&(0..1_000).map(|n| random_case(5, n).text()).collect::<String>());
}

/// Every stored case but the decks: those made by hand, and three thousand random ones.
#[test]
fn stored_cases() {
    hold_stored("cases/stored.cases", "cases/stored.expected");
}

/// The archive has no deck, so none may pass here as if it were tried.
#[test]
fn a_deck_is_refused() {
    let error = by_archive("case 1\ndeck 1 2 3\n").expect_err("the archive has no deck");
    assert!(error.starts_with("line 2: "), "{error}");
}

/// A run over a lent table: as by value with 32 records or more, refused with fewer.
#[test]
fn runs_over_a_lent_table() {
    let ground = "case 1\ndrive 0 0 1 1 0\nmemory 1024 0 0\nimage 1024 7 1 0\n\
        put 0 34 0 0 0 0 0 0 0 0 1 0 0 0 1 0 0 0 0 2 0 0 0 0 32\n\
        put 32 1 0 0 0 0 0 0 0 0 1 0 0 0 0 0 0 0 0 2 0\nwalk 0\n";
    for call in ["picks 1 0 0", "written 1"] {
        let by_value = by_archive(&format!("{ground}{call}\n")).expect("cases");
        let last = by_value.lines().last().expect("a line");
        let lent = by_archive(&format!("{ground}lent 40\nlent{call}\n")).expect("cases");
        assert_eq!(lent.lines().last(), Some(format!("lent{last}").as_str()));
        let short = by_archive(&format!("{ground}lent 31\nlent{call}\n")).expect("cases");
        let word = call.split(' ').next().expect("a word");
        let refused = format!("lent{word} 1 0 ");
        let line = short.lines().last().expect("a line");
        assert!(line.starts_with(&refused), "{line:?} does not start with {refused:?}");
    }
}

/// Two cylinders with 3 sectors on head 0 and 2 on head 1, worked out by hand; then a last head that is
/// too long.
#[test]
fn places_on_a_shorter_last_head() {
    let asked = [0, 2, 3, 4, 5, 9, 10, u32::MAX].map(|sector| format!("place {sector}\n")).concat();
    let given = by_archive(&format!("case 1\ndrive 1 1 2 1 0\n{asked}drive 1 1 2 3 0\nplace 0\n"));
    let right = [
        "case 1",
        "place 0 0 0 0",
        "place 0 0 0 2",
        "place 0 0 1 0",
        "place 0 0 1 1",
        "place 0 1 0 0",
        "place 0 1 1 1",
        "place 10 0 0 0",
        "place 10 0 0 0",
        "place 1 0 0 0",
    ];
    assert_eq!(given.expect("cases").lines().collect::<Vec<_>>(), right);
}

/// What the wrapper's look hands back is no copy; of a sector or a unit that is not there it is empty.
#[test]
fn a_look_hands_back_the_image_itself() {
    let drive = Drive { sector: 1, last_sector: 1, ..Drive::default() };
    let image: Vec<u8> = (0..1_024).map(|at| (at / 512) as u8).collect();
    let (images, mut drives) = (archive::only(&image), LentDrives::one(drive));
    let part = archive::look(&images, &drives, 0, 1);
    assert_eq!((part.as_ptr(), part.len()), (image[512..].as_ptr(), 512));
    assert!(archive::look(&images, &drives, 0, 2).is_empty());
    for unit in [1, 3, 4, 255] {
        assert!(archive::look(&images, &drives, unit, 1).is_empty());
    }
    // the same drive as unit 2, with an image of its own
    let other = image.clone();
    drives.units[2] = drives.units[0];
    let images = [&image[..], &[], &other, &[]];
    assert_eq!(archive::look(&images, &drives, 2, 1).as_ptr(), other[512..].as_ptr());
    assert_eq!(archive::look(&images, &drives, 0, 1).as_ptr(), image[512..].as_ptr());
}

#[test]
fn a_line_outside_the_format_is_named() {
    let error = by_archive("case 1\nwalk 0\nwalks 0\n").expect_err("no line has the word walks");
    assert!(error.starts_with("line 3: "), "{error}");
    // as it was before the last head had a maximum of its own
    let error = by_archive("case 1\ndrive 0 0 1 0\n").expect_err("a drive has five numbers");
    assert!(error.starts_with("line 2: "), "{error}");
    // as it was before a record had ranges, said how many sectors would have fitted, and named a unit
    for short in ["0 0 0 0 0 0 0 0", "0 0 0 0 0 0 0 0 0", "0 0 0 0 0 0 0 0 0 0"] {
        let error = by_archive(&format!("case 1\nrecord {short}\n"))
            .expect_err("a record line has eleven numbers");
        assert!(error.starts_with("line 2: "), "{error}");
    }
    // and as it was while the number of ranges had 32 bits
    let error = by_archive("case 1\nspoil 0 7 65536\n").expect_err("ranges have 16 bits");
    assert!(error.starts_with("line 2: "), "{error}");
    let error = by_archive("case 1\nspoil 0 8 256\n").expect_err("what fitted is one byte");
    assert!(error.starts_with("line 2: "), "{error}");
    // there are four units, a record's unit is one byte, and a look names its unit
    for wrong in ["unit 4", "there 2", "spoil 0 9 256", "spoil 0 10 0", "look 0", "look 256 0"] {
        let error = by_archive(&format!("case 1\n{wrong}\n")).expect_err(wrong);
        assert!(error.starts_with("line 2: "), "{error}");
    }
    let error = by_archive("case 1\nrange 0 32 0 0\n").expect_err("a record has 32 ranges");
    assert!(error.starts_with("line 2: "), "{error}");
}
