//! Several drives (ticket 5 of document 02): Line 64 to 76 of the rules and what
//! follows from them, with all numbers written by hand and the rule beside them.

use second::board::{Board, Unit};
use second::drive::Drive;
use second::look::{look, look_number};
use second::makers::block::Block;
use second::pick::pick;
use second::record::Record;
use second::run::{run_picks, run_written};
use second::walk::walk;

const WRITE: u8 = 1;
const READ: u8 = 2;

type Table = [Record; 32];

/// A drive like the bench's.
fn bench(protected: bool) -> Drive {
    Drive { protected, ..Drive::with_equal_heads(1, 1, 7) }
}

/// A drive with its image, every byte of which tells the unit and the sector.
fn lent(unit: u8, drive: Drive) -> Unit {
    let sectors = 0..drive.number_of_sectors();
    let image = sectors.flat_map(|sector| vec![64 * unit + sector as u8; 512]).collect();
    Unit::with(drive, image)
}

/// The ground of Line 64: units 0 and 1, the second protected or not, and 4,096
/// bytes of memory, all 238.
fn ground(protected: bool) -> Board {
    let mut board = Board { memory: vec![238; 4_096], ..Board::default() };
    board.units[0] = lent(0, bench(false));
    board.units[1] = lent(1, bench(protected));
    board
}

fn put(board: &mut Board, at: usize, block: Block) {
    board.memory[at..at + 30].copy_from_slice(&block.bytes);
}

fn walked(board: &Board, commands: u64) -> Table {
    let mut table = [Record { unit: 99, ..Record::default() }; 32];
    let reply = walk(board, &mut table, 0);
    assert_eq!((reply.number, reply.commands), (0, commands));
    assert_eq!(table[commands as usize].unit, 99, "past the last nothing changes");
    table
}

/// Code and byte 2 that one command alone closes with.
fn closed_on(mut board: Board, block: Block) -> (u8, u8) {
    put(&mut board, 0, block);
    let mut table = walked(&board, 1);
    assert_eq!(table[0].unit, block.bytes[5] & 7);
    assert!(run_written(&mut board, &mut table, 1, u64::MAX).finished);
    (board.memory[1], board.memory[2])
}

/// The same on the ground of Line 64.
fn closed(block: Block) -> (u8, u8) {
    closed_on(ground(true), block)
}

/// A command of one sector at 0, 0, 0, its data at 400H.
fn first(command: u8, unit: u8) -> Block {
    Block::new(command).count(1).data(0x400).unit(unit)
}

#[test]
fn a_read_of_each_unit() {
    // Line 64: units 0 and 1 are there, the second protected (Code 4, Step 8).
    let expected = [(0, 0x03), (0, 0x13), (0x42, 3), (0x42, 3), (0x42, 3), (0x42, 3), (0x42, 3)];
    for (unit, expected) in [0, 1, 2, 3, 4, 5, 7].into_iter().zip(expected) {
        assert_eq!(closed(first(READ, unit)), expected, "unit {unit}");
    }
}

#[test]
fn a_write_and_a_no_operation_of_each_unit() {
    // Line 65: 90H by the own unit's mark; 42H comes before it (Code 4 and 10).
    for (unit, expected) in [(0, (0x00, 0x03)), (1, (0x90, 0x13)), (2, (0x42, 0x03))] {
        assert_eq!(closed(first(WRITE, unit)), expected);
    }
    // Line 66: no 42H for No Operation (Code 3), and byte 2 all the same.
    for (unit, expected) in [(0, 0x03), (1, 0x13), (2, 0x03), (7, 0x03)] {
        assert_eq!(closed(first(0, unit)), (0x00, expected));
    }
    // Line 67: 14H comes before 42H (Code 2).
    assert_eq!(closed(first(5, 1)), (0x14, 0x13));
    assert_eq!(closed(first(5, 2)), (0x14, 0x03));
    // Line 68: 42H comes before 13H (Code 4 and 5).
    assert_eq!(closed(first(READ, 2).count(0)), (0x42, 0x03));
    assert_eq!(closed(first(READ, 1).count(0)), (0x13, 0x13));
}

#[test]
fn each_unit_has_its_own_maxima() {
    // Line 69: unit 1 has one track of four sectors.
    let mut board = ground(false);
    board.units[1] = lent(1, Drive::with_equal_heads(0, 0, 3));
    for (unit, sector, code) in [(1, 3, 0x00), (1, 4, 0x12), (0, 4, 0x00)] {
        assert_eq!(closed_on(board.clone(), first(READ, unit).at(0, 0, sector)).0, code);
    }
    // Its cylinder, its head and its end, which unit 0 has not reached.
    for (block, code) in [
        (first(READ, 1).at(1, 0, 0), 0x10),
        (first(READ, 1).at(0, 1, 0), 0x11),
        (first(READ, 1).at(0, 0, 2).count(3), 0x10),
        (first(READ, 1).at(0, 0, 2).count(2), 0x00),
    ] {
        assert_eq!(closed_on(board.clone(), block).0, code);
        assert_eq!(closed_on(board.clone(), block.unit(0)).0, 0x00);
    }
    // Byte 3: two of three sectors would have fitted on unit 1 (Code 18).
    put(&mut board, 0, first(READ, 1).at(0, 0, 2).count(3));
    assert_eq!(walked(&board, 1)[0].fitted, 2);
}

#[test]
fn three_bits_of_byte_5() {
    // Line 70: 08H is unit 0, F9H is unit 1; 04H is unit 4 (IOPB 8 and 16).
    assert_eq!(closed(first(READ, 0).byte(5, 0x08)), (0x00, 0x03));
    assert_eq!(closed(first(READ, 0).byte(5, 0xF9)), (0x00, 0x13));
    assert_eq!(closed(first(READ, 0).byte(5, 0x04)), (0x42, 0x03));
    assert_eq!(closed(first(READ, 0).byte(5, 0xFD)), (0x42, 0x03));
}

/// A write of sector 0 of unit 0 from 400H, and a read of sector 0 of a unit.
fn two(read_unit: u8, data: u64) -> (Board, Table) {
    let mut board = ground(false);
    put(&mut board, 0x00, first(WRITE, 0).next(0x20));
    put(&mut board, 0x20, first(READ, read_unit).data(data));
    let table = walked(&board, 2);
    (board, table)
}

#[test]
fn sectors_of_two_units_never_meet() {
    // Line 71 and 72 (Touch 4): other units go, the same unit waits, and so does
    // data that meets.
    for (unit, data, number) in [(1, 0x800, 0), (0, 0x800, 6), (1, 0x400, 6)] {
        let (mut board, mut table) = two(unit, data);
        assert_eq!(pick(&mut board, &mut table, 2, 1), number);
        assert_eq!(run_picks(&mut board, &mut table, 2, &[0]).steps, 1);
        assert!(run_written(&mut board, &mut table, 2, 9).finished);
        // The read has what its own unit has: 64 on unit 1, the write's on unit 0.
        let read = if unit == 1 { 64 } else { 238 };
        assert_eq!(board.memory[data as usize], read);
        assert_eq!(look(&board, 0, 0)[0], 238);
        assert_eq!(look(&board, 1, 0), [64; 512]);
    }
}

/// The numbers of a run and of a look at unit 0.
fn run_and_look(board: &Board) -> [u8; 2] {
    let mut table = [Record::default(); 32];
    let run = run_written(&mut board.clone(), &mut table, 0, 1);
    [run.number, look_number(board, 0, 0)]
}

#[test]
fn absent_units_are_not_asked_for_their_size() {
    // Line 73 (Size 3 and 5, Board 11).
    let mut board = ground(false);
    board.units[1].image.extend([0; 512]);
    assert_eq!(run_and_look(&board), [1, 1]);
    board.units[1].there = false;
    assert_eq!(run_and_look(&board), [0, 0]);
    board.units[1] = lent(1, bench(false));
    board.units[1].drive.last_head_max_sector = 8;
    assert_eq!(run_and_look(&board), [1, 1]);
    board.units[1].there = false;
    assert_eq!(run_and_look(&board), [0, 0]);
    // With no unit there nothing but memory has a size.
    board.units[0].there = false;
    board.units[0].image.clear();
    assert_eq!(run_and_look(&board), [0, 11]);
    board.memory = vec![0; 65_537];
    assert_eq!(run_and_look(&board), [1, 11]);
}

#[test]
fn looks_at_units() {
    // Line 74: 1, then 11, then 10, then 0 (Look 4 to 7).
    let mut board = ground(true);
    for (unit, sector, number) in
        [(1, 31, 0), (1, 32, 10), (2, 32, 11), (4, 0, 11), (255, 0, 11), (0, 32, 10), (5, 0, 11)]
    {
        assert_eq!(look_number(&board, unit, sector), number);
        assert_eq!(look(&board, unit, sector).is_empty(), number != 0);
    }
    assert_eq!(look(&board, 1, 31), [64 + 31; 512]);
    board.units[1].image.extend([0; 512]);
    for (unit, sector) in [(2, 0), (0, 0), (1, 32), (255, 0)] {
        assert_eq!(look_number(&board, unit, sector), 1);
    }
}

/// The number of a run over one record by hand.
fn run_of(board: &Board, record: Record) -> u8 {
    let mut table = [Record::default(); 32];
    table[0] = record;
    run_written(&mut board.clone(), &mut table, 1, 1).number
}

#[test]
fn number_nine_by_the_records_own_unit() {
    // Line 75 (Spoiled 11 and 8).
    let board = ground(true);
    let read = Record { iopb: 0x80, data: 0x400, count: 1, byte0: READ, ..Record::default() };
    for (unit, number) in [(0, 0), (1, 0), (2, 9), (3, 9), (4, 9), (7, 9), (8, 9), (255, 9)] {
        assert_eq!(run_of(&board, Record { unit, ..read }), number, "unit {unit}");
        assert_eq!(run_of(&board, Record { unit, byte0: 0, ..read }), 0);
        assert_eq!(run_of(&board, Record { unit, code: 0x42, ..read }), 0);
    }
    // Spoiled 6 and 7 by the own unit: unit 1 has four sectors, then is protected.
    let mut small = ground(false);
    small.units[1] = lent(1, Drive::with_equal_heads(0, 0, 3));
    for (unit, sector, number) in [(1, 3, 0), (1, 4, 9), (0, 4, 0), (0, 31, 0), (0, 32, 9)] {
        assert_eq!(run_of(&small, Record { unit, sector, ..read }), number);
    }
    for (unit, number) in [(0, 0), (1, 9)] {
        assert_eq!(run_of(&board, Record { unit, byte0: WRITE, ..read }), number);
    }
}

#[test]
fn drives_that_change_after_the_walk() {
    // Line 76 (Board 7): the read's drive is taken away; the write's is marked.
    let mut board = ground(false);
    put(&mut board, 0, first(READ, 1));
    let mut table = walked(&board, 1);
    board.units[1].there = false;
    assert_eq!(pick(&mut board, &mut table, 1, 0), 9);
    board.units[1].there = true;
    assert_eq!(pick(&mut board, &mut table, 1, 0), 0);
    let mut board = ground(false);
    put(&mut board, 0, first(WRITE, 0));
    let mut table = walked(&board, 1);
    board.units[1].drive.protected = true;
    assert_eq!(pick(&mut board.clone(), &mut table.clone(), 1, 0), 0);
    board.units[1].drive.protected = false;
    board.units[0].drive.protected = true;
    assert_eq!(pick(&mut board, &mut table, 1, 0), 9);
    // What is no transfer closes, by the unit as it is now: absent is 03H.
    let mut board = ground(true);
    put(&mut board, 0, first(0, 1));
    let mut table = walked(&board, 1);
    board.units[1].there = false;
    assert_eq!(pick(&mut board, &mut table, 1, 0), 0);
    assert_eq!(board.memory[2], 0x03);
}

#[test]
fn the_first_sector_in_the_record() {
    // Record 4: by the own unit's drive; on an absent unit cylinder + head +
    // sector, whatever is lent for it (Board 11).
    let mut board = ground(false);
    board.units[1] = lent(1, Drive::with_equal_heads(4, 2, 4));
    board.units[2].drive = Drive::with_equal_heads(9, 9, 9);
    for (unit, sector) in [(0, 16 + 8 + 2), (1, 15 + 5 + 2), (2, 4), (3, 4), (4, 4), (7, 4)] {
        for command in [READ, WRITE, 0, 5] {
            put(&mut board, 0, first(command, unit).at(1, 1, 2));
            assert_eq!(walked(&board, 1)[0].sector, sector, "unit {unit}");
        }
    }
}

#[test]
fn a_step_changes_one_image_alone() {
    let mut board = Board { memory: vec![238; 4_096], ..Board::default() };
    for unit in 0..4 {
        board.units[unit] = lent(unit as u8, bench(false));
    }
    for unit in 0..4 {
        put(&mut board, 0, first(WRITE, unit).at(0, 0, 5));
        let mut table = walked(&board, 1);
        let mut expected = board.clone();
        expected.units[usize::from(unit)].image[5 * 512..6 * 512].fill(238);
        expected.memory[..4].copy_from_slice(&[0x41, 0x00, 0x03, 0x00]);
        // The unit that lies in memory by then has no say (Walk 1).
        (board.memory[5], expected.memory[5]) = (9 - unit, 9 - unit);
        assert_eq!(pick(&mut board, &mut table, 1, 0), 0);
        assert_eq!(board, expected);
        // Read back, it is what was written, whatever other units have (Demand 2).
        put(&mut board, 0, first(READ, unit).at(0, 0, 5).data(0x800));
        let mut table = walked(&board, 1);
        board.memory[0x800..0xA00].fill(0);
        assert_eq!(pick(&mut board, &mut table, 1, 0), 0);
        assert_eq!(board.memory[0x800..0xA00], [238; 512]);
    }
}
