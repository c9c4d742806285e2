//! Random chains against what document 01 demands of any order of steps:
//! whatever is picked, the rest done as written ends as the whole chain does.

use second::board::{Board, Unit};
use second::drive::Drive;
use second::makers::chain::random_chain;
use second::makers::rng::Rng;
use second::makers::unit_cases::on_some_unit;
use second::pick::pick;
use second::record::Record;
use second::run::{all_finished, run_picks, run_written};
use second::walk::walk;
use std::collections::{BTreeMap, BTreeSet};

const CHAINS: u64 = 10_000;

type Table = [Record; 32];

/// A chain that the walk has accepted.
struct Walked {
    board: Board,
    table: Table,
    commands: u64,
}

fn random_unit(rng: &mut Rng) -> Unit {
    let max_sector = rng.below(6);
    let drive = Drive {
        max_cylinder: rng.below(4) as u16,
        max_head: rng.below(3) as u8,
        max_sector: max_sector as u8,
        last_head_max_sector: rng.between(0, max_sector) as u8,
        protected: rng.percent(8),
    };
    Unit::with(drive, rng.bytes(512 * drive.number_of_sectors()))
}

/// Unit 0 alone, or with others that are there or absent; of an absent one the
/// image may be anything.
fn random_board(rng: &mut Rng) -> Board {
    let length = rng.between(512, 6_000);
    let Unit { drive, image, .. } = random_unit(rng);
    let mut board = Board::with_unit_0(rng.bytes(length), drive, image);
    if rng.percent(50) {
        for unit in 1..4 {
            board.units[unit] = random_unit(rng);
            board.units[unit].there = rng.percent(70);
        }
    }
    for unit in board.units.iter_mut().filter(|unit| !unit.there) {
        unit.image.truncate(700);
    }
    board
}

fn put(board: &mut Board, address: u64, bytes: &[u8]) {
    let at = address as usize;
    board.memory[at..at + bytes.len()].copy_from_slice(bytes);
}

/// The next accepted chain; refused ones are left out.
fn next_chain(rng: &mut Rng) -> Walked {
    loop {
        let mut board = random_board(rng);
        let drive = board.units[0].drive;
        let mut chain = random_chain(rng, board.memory_bytes(), &drive);
        if board.present().count() > 1 {
            for (_, block) in &mut chain.blocks {
                *block = on_some_unit(rng, &board, &drive, *block);
            }
        }
        for (address, bytes) in &chain.lists {
            put(&mut board, *address, bytes);
        }
        for (address, block) in &chain.blocks {
            put(&mut board, *address, &block.bytes);
        }
        let mut table = [Record::default(); 32];
        let reply = walk(&board, &mut table, chain.start);
        if reply.number == 0 {
            return Walked { board, table, commands: reply.commands };
        }
    }
}

fn random_picks(rng: &mut Rng, commands: u64) -> Vec<u8> {
    let length = rng.below(4 * commands + 8);
    (0..length).map(|_| rng.below(commands + 2) as u8).collect()
}

/// Some command of the chain moves its data by a link list.
fn has_lists(walked: &Walked) -> bool {
    walked.table.iter().any(|record| record.is_transfer() && record.has_list())
}

fn sum_of_steps(table: &Table, commands: u64) -> u64 {
    table[..commands as usize].iter().map(Record::steps).sum()
}

#[test]
fn any_picks_then_as_written_end_alike() {
    let mut rng = Rng::new(31);
    let mut with_lists = 0;
    for _ in 0..CHAINS {
        let walked = next_chain(&mut rng);
        with_lists += u64::from(has_lists(&walked));
        let Walked { mut board, mut table, commands } = walked;
        let sum = sum_of_steps(&table, commands);
        let mut whole_board = board.clone();
        let mut whole_table = table;
        let whole = run_written(&mut whole_board, &mut whole_table, commands, u64::MAX);
        assert_eq!((whole.number, whole.steps, whole.finished), (0, sum, true));

        let list = random_picks(&mut rng, commands);
        let by_picks = run_picks(&mut board, &mut table, commands, &list);
        assert_eq!(by_picks.number, 0);
        assert_eq!(by_picks.steps + by_picks.refused, list.len() as u64);
        assert_eq!(by_picks.finished, by_picks.steps == sum);

        let rest = run_written(&mut board, &mut table, commands, u64::MAX);
        assert!(rest.finished);
        assert_eq!(by_picks.steps + rest.steps, sum);
        assert_eq!(board, whole_board);
        assert_eq!(table, whole_table);
    }
    assert!(with_lists > CHAINS / 4, "only {with_lists} chains had lists");
}

#[test]
fn single_picks_keep_their_promises() {
    let mut rng = Rng::new(32);
    for _ in 0..CHAINS {
        let Walked { mut board, mut table, commands } = next_chain(&mut rng);
        let sum = sum_of_steps(&table, commands);
        let mut accepted = 0;
        for _ in 0..6 {
            let place = rng.below(commands + 2);
            let before = (board.clone(), table);
            let number = pick(&mut board, &mut table, commands, place);
            if number == 0 {
                accepted += 1;
                assert_eq!(table[place as usize].taken, before.1[place as usize].taken + 1);
            } else {
                assert_eq!((board.clone(), table), before, "a refused pick changes no byte");
            }
        }
        // The earliest unfinished command is never kept waiting.
        while !all_finished(&table[..commands as usize]) {
            let earliest = table.iter().position(|record| !record.finished()).unwrap();
            assert_eq!(pick(&mut board, &mut table, commands, earliest as u64), 0);
            accepted += 1;
        }
        assert_eq!(accepted, sum);
    }
}

#[test]
fn refused_calls_change_no_byte() {
    let mut rng = Rng::new(33);
    for _ in 0..2_000 {
        let Walked { mut board, mut table, commands } = next_chain(&mut rng);
        let list = random_picks(&mut rng, commands);
        run_picks(&mut board, &mut table, commands, &list[..list.len() / 2]);
        let there: Vec<usize> = (0..4).filter(|unit| board.units[*unit].there).collect();
        let drive = &mut board.units[rng.one_of(&there)].drive;
        match rng.below(3) {
            0 => table[rng.below(commands) as usize].taken = u32::MAX,
            1 => drive.max_cylinder += 1,
            _ => drive.last_head_max_sector = drive.max_sector + 1,
        }
        let before = (board.clone(), table);
        assert_ne!(pick(&mut board, &mut table, commands, 0), 0);
        let by_picks = run_picks(&mut board, &mut table, commands, &list);
        assert_ne!(by_picks.number, 0);
        assert_eq!((by_picks.steps, by_picks.refused, by_picks.finished), (0, 0, false));
        let written = run_written(&mut board, &mut table, commands, u64::MAX);
        assert_ne!(written.number, 0);
        assert_eq!((written.steps, written.finished), (0, false));
        assert_ne!(walk(&board, &mut table, 1).number, 0);
        assert_eq!((board, table), before);
    }
}

/// What a step of a chain last wrote to a sector, and whether by a list.
#[derive(Clone)]
struct Written {
    bytes: Vec<u8>,
    by_list: bool,
}

/// The addresses of the sector that a transfer moves next: those of all its
/// bytes, one after the other, and of these the right 512.
fn next_addresses(record: &Record) -> Vec<usize> {
    let mut all = Vec::new();
    if record.ranges == 0 {
        all.extend((0..512 * usize::from(record.count)).map(|k| record.data as usize + k));
    }
    for range in &record.list[..record.ranges as usize] {
        all.extend((0..range.length as usize).map(|k| range.address as usize + k));
    }
    let from = 512 * record.taken as usize;
    all[from..from + 512].to_vec()
}

fn distinct(addresses: &[usize]) -> bool {
    addresses.iter().collect::<BTreeSet<_>>().len() == addresses.len()
}

/// Takes one step as written, and holds a read against what was last written,
/// where no two of its bytes lie in one place. Gives whether there was anything
/// to hold it against, and whether by lists: on the write's side, the read's.
fn step_and_compare(
    walked: &mut Walked,
    written: &mut BTreeMap<(u8, u32), Written>,
) -> Option<(bool, bool)> {
    let Walked { board, table, commands } = walked;
    let place = table.iter().position(|record| !record.finished()).unwrap();
    let record = table[place];
    let by_list = record.ranges > 0;
    if !record.is_transfer() {
        assert_eq!(run_written(board, table, *commands, 1).steps, 1);
        return None;
    }
    let addresses = next_addresses(&record);
    let sector = (record.unit, record.sector + record.taken);
    if record.writes_sectors() {
        let bytes = addresses.iter().map(|address| board.memory[*address]).collect();
        written.insert(sector, Written { bytes, by_list });
    }
    assert_eq!(run_written(board, table, *commands, 1).steps, 1);
    if !record.reads_sectors() || !distinct(&addresses) {
        return None;
    }
    let expected = written.get(&sector)?;
    let closed = table[place].finished();
    let status = record.iopb as usize..record.iopb as usize + 4;
    for (address, byte) in addresses.iter().zip(&expected.bytes) {
        // Its own close may lie over the data that it has just read.
        if !(closed && status.contains(address)) {
            assert_eq!(board.memory[*address], *byte);
        }
    }
    Some((expected.by_list, by_list))
}

#[test]
fn a_sector_reads_back_as_it_was_written() {
    let mut rng = Rng::new(34);
    let mut compared = BTreeMap::new();
    let mut other_units = 0;
    for _ in 0..CHAINS {
        let mut walked = next_chain(&mut rng);
        let mut written = BTreeMap::new();
        while !all_finished(&walked.table[..walked.commands as usize]) {
            if let Some(by_lists) = step_and_compare(&mut walked, &mut written) {
                *compared.entry(by_lists).or_insert(0) += 1;
            }
        }
        // Looked at in the end, every sector is as it was last written.
        for ((unit, sector), last) in written {
            let seen = second::look::look(&walked.board, unit.into(), sector.into());
            assert_eq!(seen, last.bytes.as_slice());
            other_units += u64::from(unit != 0);
        }
    }
    assert!(other_units > 1_000, "only {other_units} sectors of units 1 to 3");
    for by_lists in [(false, false), (false, true), (true, false), (true, true)] {
        let number = compared.get(&by_lists).copied().unwrap_or(0);
        assert!(number > 300, "only {number} reads to compare, by lists {by_lists:?}");
    }
}
