//! The work that is measured, one batch of it for each side: runs as written, picks and walks, and
//! the plain copies that they are held against.

use crate::declared::Record;
use crate::speed::clock::Side;
use crate::speed::ground::{Data, Ground, Shape, COMMANDS, SECTOR, TABLES};
use crate::translate::{lent, lent_mut};
use crate::{archive, ordinary};
use std::hint::black_box;

pub const FIRMWARE: &str = "firmware";
pub const ORDINARY: &str = "ordinary Rust";
pub const SECOND: &str = "second program";
pub const COPY: &str = "plain copy";

/// Moves as much as a command moves, to or from where its data lies, by plain copies of so many
/// sectors each.
fn copy(memory: &mut [u8], image: &mut [u8], record: &Record, area: usize, at_once: usize) {
    let (mut at, mut on_disk) = (area, record.sector as usize * SECTOR);
    let end = at + usize::from(record.count) * SECTOR;
    let bytes = black_box(at_once * SECTOR);
    while at < end {
        let (host, disk) = (&mut memory[at..at + bytes], &mut image[on_disk..on_disk + bytes]);
        if record.byte0 & 15 == 2 {
            host.copy_from_slice(disk);
        } else {
            disk.copy_from_slice(host);
        }
        at += bytes;
        on_disk += bytes;
    }
}

/// The sectors of the whole chain, each command's by one copy.
fn copy_commands(ground: &mut Ground) {
    for table in &ground.tables {
        for (record, area) in black_box(table).iter().zip(&ground.areas) {
            let image = &mut ground.images[usize::from(record.unit)];
            copy(&mut ground.memory, image, record, *area, usize::from(record.count));
        }
    }
}

/// The sectors of the whole chain, one copy for each sector. Only for commands of one sector: with
/// more, its time has differed by half from one run of the program to the next.
fn copy_sectors(ground: &mut Ground) {
    for table in &ground.tables {
        for (record, area) in black_box(table).iter().zip(&ground.areas) {
            let image = &mut ground.images[usize::from(record.unit)];
            copy(&mut ground.memory, image, record, *area, 1);
        }
    }
}

/// Every place once, from the last to the first.
fn last_to_first() -> [u8; COMMANDS] {
    std::array::from_fn(|k| (COMMANDS - 1 - k) as u8)
}

macro_rules! board_works {
    ($board:ident) => {
        pub fn run_written(g: &mut Ground) {
            let (memory, images) = (&mut g.memory, &mut lent_mut(&mut g.images));
            for table in &mut g.tables {
                let table = black_box(table);
                let ran = $board::run_written(memory, images, &g.drives, table, COMMANDS, u64::MAX);
                assert!(ran.finished);
            }
        }

        pub fn picks_last_first(g: &mut Ground) {
            let (memory, images) = (&mut g.memory, &mut lent_mut(&mut g.images));
            for table in &mut g.tables {
                let table = black_box(table);
                for place in (0..COMMANDS).rev() {
                    assert_eq!($board::pick(memory, images, &g.drives, table, COMMANDS, place), 0);
                }
            }
        }

        pub fn picks_first_last(g: &mut Ground) {
            let (memory, images) = (&mut g.memory, &mut lent_mut(&mut g.images));
            for table in &mut g.tables {
                let table = black_box(table);
                for place in 0..COMMANDS {
                    assert_eq!($board::pick(memory, images, &g.drives, table, COMMANDS, place), 0);
                }
            }
        }

        pub fn pick_last(g: &mut Ground) {
            let (memory, images) = (&mut g.memory, &mut lent_mut(&mut g.images));
            for table in &mut g.tables {
                let table = black_box(table);
                let number = $board::pick(memory, images, &g.drives, table, COMMANDS, COMMANDS - 1);
                assert_eq!(number, 0);
            }
        }

        pub fn run_by_picks(g: &mut Ground) {
            let picks = last_to_first();
            let (memory, images) = (&mut g.memory, &mut lent_mut(&mut g.images));
            for table in &mut g.tables {
                let table = black_box(table);
                let ran = $board::run_picks(memory, images, &g.drives, table, COMMANDS, &picks);
                assert!(ran.finished);
            }
        }

        pub fn run_in_turn(g: &mut Ground) {
            let (memory, images) = (&mut g.memory, &mut lent_mut(&mut g.images));
            for table in &mut g.tables {
                let (table, picks) = (black_box(table), &g.in_turn);
                let ran = $board::run_picks(memory, images, &g.drives, table, COMMANDS, picks);
                assert!(ran.finished && ran.refused == 0);
            }
        }

        pub fn walk(g: &mut Ground) {
            let images = &lent(&g.images);
            for table in &mut g.tables {
                let walked = $board::walk(black_box(&g.memory), images, &g.drives, 0, table);
                assert_eq!(walked.commands, COMMANDS);
            }
        }
    };
}

mod firmware {
    use super::*;
    board_works!(archive);
}

mod plain {
    use super::*;
    board_works!(ordinary);
}

/// The second program, on its own board.
mod slow {
    use super::*;

    pub fn run_written(g: &mut Ground) {
        for table in &mut g.second_tables {
            let ran = second::run::run_written(&mut g.second, table, COMMANDS as u64, u64::MAX);
            assert!(ran.finished);
        }
    }

    pub fn picks_last_first(g: &mut Ground) {
        for table in &mut g.second_tables {
            for place in (0..COMMANDS as u64).rev() {
                let number = second::pick::pick(&mut g.second, table, COMMANDS as u64, place);
                assert_eq!(number, 0);
            }
        }
    }

    pub fn picks_first_last(g: &mut Ground) {
        for table in &mut g.second_tables {
            for place in 0..COMMANDS as u64 {
                let number = second::pick::pick(&mut g.second, table, COMMANDS as u64, place);
                assert_eq!(number, 0);
            }
        }
    }

    pub fn pick_last(g: &mut Ground) {
        for table in &mut g.second_tables {
            let place = COMMANDS as u64 - 1;
            assert_eq!(second::pick::pick(&mut g.second, table, COMMANDS as u64, place), 0);
        }
    }

    pub fn run_by_picks(g: &mut Ground) {
        let picks = last_to_first();
        for table in &mut g.second_tables {
            let ran = second::run::run_picks(&mut g.second, table, COMMANDS as u64, &picks);
            assert!(ran.finished);
        }
    }

    pub fn walk(g: &mut Ground) {
        for table in &mut g.second_tables {
            assert_eq!(second::walk::walk(&g.second, table, 0).commands, COMMANDS as u64);
        }
    }
}

/// What the firmware is held against.
#[derive(Clone, Copy, PartialEq, Eq)]
pub enum Against {
    Copy,
    Ordinary,
}

/// One row of the page: what is done, on chains of what shape, by which sides.
pub struct Work {
    pub name: String,
    /// What the plain copy copies.
    pub copied: &'static str,
    /// The most that the firmware may take, as so many times the side that it is held against; none
    /// where it is only told.
    pub goal: Option<(Against, f64)>,
    pub shape: Shape,
    /// The copy, the firmware, ordinary Rust, and the second program where it is timed.
    pub sides: Vec<Side>,
}

type Batch = fn(&mut Ground);

/// What a plain copy copies, in words, by a batch, and how many units a batch has.
type Copied = (&'static str, Batch, usize);

const WHOLE: Copied = ("the same, one copy a command", copy_commands, TABLES);
const ONE_SECTOR: Copied = ("one sector", copy_sectors, TABLES * COMMANDS);
const ALL_SECTORS: Copied = ("32 sectors", copy_sectors, TABLES);
/// A list has the same bytes in several ranges, which take longer than one.
const IN_ONE_PIECE: Copied = ("as much in one piece, one copy a command", copy_commands, TABLES);

/// A row: its boards are the firmware, ordinary Rust and the second program, if it is timed.
fn work(
    name: &str,
    shape: Shape,
    copied: Copied,
    boards: (Batch, Batch, Option<Batch>),
    units: usize,
    goal: Option<(Against, f64)>,
) -> Work {
    let (firmware, plain, slow) = boards;
    let mut sides = vec![
        Side { name: COPY, batch: copied.1, units: copied.2 },
        Side { name: FIRMWARE, batch: firmware, units },
        Side { name: ORDINARY, batch: plain, units },
    ];
    sides.extend(slow.map(|batch| Side { name: SECOND, batch, units }));
    Work { name: name.to_string(), copied: copied.0, goal, shape, sides }
}

fn runs_as_written() -> Vec<Work> {
    // 1.25 of the copy: ticket 2 sets it, since its record has room for 32 ranges, and a table of such
    // records is fourteen times as large as before
    let goals =
        [(1, Against::Ordinary, 1.10), (8, Against::Copy, 1.25), (128, Against::Copy, 1.25)];
    let boards: (Batch, Batch, Option<Batch>) =
        (firmware::run_written, plain::run_written, Some(slow::run_written));
    let mut works: Vec<Work> = goals
        .map(|(count, against, goal)| {
            let name = format!("run as written, 32 commands of {count}");
            work(&name, Shape::plain(count), WHOLE, boards, TABLES, Some((against, goal)))
        })
        .into();
    let listed = Shape::of(8, Data::Apart(4));
    let name = "run as written, 32 commands of 8, each a list of 4 ranges";
    works.push(work(name, listed, IN_ONE_PIECE, boards, TABLES, Some((Against::Copy, 1.50))));
    let name = "run as written, 32 commands of 1, over four drives";
    works.push(work(name, Shape::over_units(1), WHOLE, boards, TABLES, None));
    works
}

fn runs_by_picks() -> Vec<Work> {
    // the second program takes a second for a batch of these
    let in_turn: (Batch, Batch, Option<Batch>) = (firmware::run_in_turn, plain::run_in_turn, None);
    let reversed: (Batch, Batch, Option<Batch>) =
        (firmware::run_by_picks, plain::run_by_picks, Some(slow::run_by_picks));
    let turns = "run by picks, 32 commands of 128, places in turn";
    let back = "run by picks, 32 commands of 1, last to first";
    let over = "run by picks, 32 commands of 1, last to first, over four drives";
    vec![
        work(turns, Shape::plain(128), WHOLE, in_turn, TABLES, Some((Against::Copy, 1.15))),
        work(back, Shape::plain(1), WHOLE, reversed, TABLES, Some((Against::Ordinary, 1.10))),
        work(over, Shape::over_units(1), WHOLE, reversed, TABLES, None),
    ]
}

fn single_picks() -> Vec<Work> {
    let one = |name: &str, boards: [Batch; 3], units| {
        let [firmware, plain, slow] = boards;
        let goal = Some((Against::Ordinary, 1.25));
        work(name, Shape::plain(1), ONE_SECTOR, (firmware, plain, Some(slow)), units, goal)
    };
    vec![
        one(
            "a pick, 32 places in turn, first to last",
            [firmware::picks_first_last, plain::picks_first_last, slow::picks_first_last],
            TABLES * COMMANDS,
        ),
        one(
            "a pick, 32 places in turn, last to first",
            [firmware::picks_last_first, plain::picks_last_first, slow::picks_last_first],
            TABLES * COMMANDS,
        ),
        one(
            "a pick at the last place, none finished",
            [firmware::pick_last, plain::pick_last, slow::pick_last],
            TABLES,
        ),
    ]
}

/// Picks of commands with lists of 32 ranges. The last row says what it costs to compare range by
/// range; it has no goal of its own.
fn picks_of_lists() -> Vec<Work> {
    let boards: (Batch, Batch, Option<Batch>) =
        (firmware::picks_last_first, plain::picks_last_first, Some(slow::picks_last_first));
    let one = |name: &str, data, goal| {
        work(name, Shape::of(1, data), ONE_SECTOR, boards, TABLES * COMMANDS, goal)
    };
    let goal = Some((Against::Ordinary, 1.50));
    vec![
        one("a pick of 32 lists of 32 ranges, last to first", Data::Apart(32), goal),
        one("the same, each list's ranges between the others'", Data::Mixed(32), None),
    ]
}

/// All that is measured, in the order of the page.
pub fn all() -> Vec<Work> {
    let mut works = runs_as_written();
    works.extend(runs_by_picks());
    works.extend(single_picks());
    works.extend(picks_of_lists());
    let walks: (Batch, Batch, Option<Batch>) = (firmware::walk, plain::walk, Some(slow::walk));
    let goal = Some((Against::Ordinary, 1.10));
    works.push(work("the walk of 32 commands", Shape::plain(1), ALL_SECTORS, walks, TABLES, goal));
    works
}
