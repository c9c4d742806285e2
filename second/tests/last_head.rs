//! The last head with a maximum of its own (ticket 1 of document 02): codes,
//! sizes, steps and looks, with the numbers written by hand.

use second::board::Board;
use second::drive::Drive;
use second::look::{look, look_number};
use second::makers::block::Block;
use second::pick::pick;
use second::record::Record;
use second::run::{run_picks, run_written};
use second::walk::walk;

const WRITE: u8 = 1;
const READ: u8 = 2;
/// Two heads of 5 sectors and a last one of 2: 12 on a cylinder, 24 in all.
const PACK: Drive = Drive {
    max_cylinder: 1,
    max_head: 2,
    max_sector: 4,
    last_head_max_sector: 1,
    protected: false,
};

type Table = [Record; 32];

/// Sector n is full of n, and the k-th 512 bytes from 400H on of 100 + k.
fn board_with(drive: Drive, sectors: u64, block: Block) -> Board {
    let mut memory = vec![0; 0x400 + 30 * 512];
    for k in 0..30 {
        let from = 0x400 + 512 * k;
        memory[from..from + 512].fill(100 + k as u8);
    }
    memory[..30].copy_from_slice(&block.bytes);
    let image = (0..sectors).flat_map(|sector| [sector as u8; 512]).collect();
    Board::with_unit_0(memory, drive, image)
}

fn pack_with(block: Block) -> Board {
    board_with(PACK, 24, block)
}

fn walked(board: &Board) -> Table {
    let mut table = [Record::default(); 32];
    let reply = walk(board, &mut table, 0);
    assert_eq!((reply.number, reply.commands), (0, 1));
    table
}

fn at(cylinder: u64, head: u64, sector: u64) -> Block {
    Block::new(READ).at(cylinder, head, sector).count(1).data(0x400)
}

/// The code that a command gets on the pack, as a read and as a write.
fn code(block: Block) -> u8 {
    let read = walked(&pack_with(block.command(READ)))[0].code;
    let write = walked(&pack_with(block.command(WRITE)))[0].code;
    assert_eq!(read, write);
    read
}

#[test]
fn each_head_has_its_own_maximum() {
    for cylinder in [0, 1] {
        for head in [0, 1] {
            for (sector, expected) in [(1, 0x00), (2, 0x00), (4, 0x00), (5, 0x12), (255, 0x12)] {
                assert_eq!(code(at(cylinder, head, sector)), expected);
            }
        }
        for (sector, expected) in [(0, 0x00), (1, 0x00), (2, 0x12), (4, 0x12), (5, 0x12)] {
            assert_eq!(code(at(cylinder, 2, sector)), expected);
        }
    }
}

#[test]
fn codes_before_and_after_the_sector() {
    assert_eq!(code(at(0, 3, 0)), 0x11);
    assert_eq!(code(at(0, 3, 2)), 0x11);
    assert_eq!(code(at(0, 3, 5)), 0x11);
    assert_eq!(code(at(2, 3, 5)), 0x10);
    assert_eq!(code(at(2, 2, 2)), 0x10);
    assert_eq!(code(at(1, 2, 2).count(0)), 0x13);
    assert_eq!(code(at(1, 2, 2).unit(1)), 0x42);
    assert_eq!(code(at(1, 2, 2).count(2)), 0x12);
    assert_eq!(code(at(1, 2, 2).data(0xFFFF_FFFF)), 0x12);
    let mut board = pack_with(at(1, 2, 2).command(WRITE));
    board.units[0].drive.protected = true;
    assert_eq!(walked(&board)[0].code, 0x12);
}

#[test]
fn the_end_of_the_drive() {
    for (place, fit) in [
        ((1, 2, 1), 1),
        ((1, 2, 0), 2),
        ((1, 1, 4), 3),
        ((0, 2, 1), 13),
        ((0, 1, 3), 16),
        ((0, 0, 0), 24),
    ] {
        let block = at(place.0, place.1, place.2);
        assert_eq!(code(block.count(fit)), 0x00);
        assert_eq!(code(block.count(fit + 1)), 0x10);
        assert_eq!(code(block.count(fit + 6)), 0x10);
    }
}

#[test]
fn a_write_changes_the_sectors_that_it_names() {
    for (place, count, first) in
        [((0, 1, 4), 4, 9), ((0, 2, 1), 2, 11), ((0, 0, 4), 2, 4), ((0, 0, 3), 21, 3)]
    {
        let block = at(place.0, place.1, place.2).command(WRITE).count(count);
        let mut board = pack_with(block);
        let mut table = walked(&board);
        let run = run_written(&mut board, &mut table, 1, u64::MAX);
        assert_eq!((run.number, run.steps, run.finished), (0, count, true));
        for sector in 0..24 {
            let named = first <= sector && sector < first + count;
            let byte = if named { 100 + (sector - first) } else { sector };
            assert_eq!(look(&board, 0, sector), [byte as u8; 512], "sector {sector}");
        }
    }
}

#[test]
fn a_read_goes_on_to_the_next_cylinder() {
    // The last sector of each head but the first, and the one after it.
    let mut board = pack_with(at(0, 1, 4).count(4));
    let mut table = walked(&board);
    for (step, sector) in [9, 10, 11, 12].into_iter().enumerate() {
        assert_eq!(pick(&mut board, &mut table, 1, 0), 0);
        let from = 0x400 + 512 * step;
        assert_eq!(board.memory[from..from + 512], [sector; 512]);
    }
    assert_eq!(pick(&mut board, &mut table, 1, 0), 7);
}

#[test]
fn one_head_alone() {
    for others in [2, 5] {
        let drive = Drive { max_cylinder: 3, max_head: 0, max_sector: others, ..PACK };
        let drive = Drive { last_head_max_sector: 2, ..drive };
        for (block, expected) in [
            (at(3, 0, 2), 0x00),
            (at(3, 0, 2).count(2), 0x10),
            (at(0, 0, 3), 0x12),
            (at(0, 0, 2).count(10), 0x00),
            (at(0, 0, 2).count(11), 0x10),
            (at(0, 1, 0), 0x11),
        ] {
            assert_eq!(walked(&board_with(drive, 12, block))[0].code, expected);
        }
    }
}

/// The numbers of all calls that ask for the sizes, with a table in use.
fn numbers(drive: Drive, sectors: u64) -> [u8; 5] {
    let mut board = board_with(drive, sectors, at(0, 0, 0));
    let mut table = [Record::default(); 32];
    table[0] = Record { count: 1, byte0: READ, data: 0x400, ..Record::default() };
    let before = (board.clone(), table);
    let numbers = [
        walk(&board, &mut table.clone(), 0).number,
        run_picks(&mut board, &mut table, 1, &[]).number,
        run_written(&mut board, &mut table, 1, 0).number,
        look_number(&board, 0, 0),
        pick(&mut board, &mut table, 1, 0),
    ];
    if numbers[4] != 0 {
        assert_eq!((board, table), before, "a refused call changes nothing");
    }
    numbers
}

#[test]
fn the_size_of_the_image() {
    for (sectors, expected) in [(24, 0), (23, 1), (25, 1), (30, 1), (12, 1), (20, 1), (0, 1)] {
        assert_eq!(numbers(PACK, sectors), [expected; 5], "{sectors} sectors");
    }
}

#[test]
fn a_last_maximum_above_the_other() {
    let above = Drive { last_head_max_sector: 5, ..PACK };
    // Its own size, that of equal heads by either maximum, and none.
    for sectors in [32, 30, 36, 24, 0] {
        assert_eq!(numbers(above, sectors), [1; 5], "{sectors} sectors");
    }
    assert_eq!(numbers(above.as_if_equal(), 30), [0; 5]);
    // One head: the size is that of the last head, and still it is 1.
    let one_head = Drive { max_head: 0, max_sector: 0, last_head_max_sector: 1, ..PACK };
    for sectors in [4, 2, 0] {
        assert_eq!(numbers(one_head, sectors), [1; 5], "{sectors} sectors");
    }
}

#[test]
fn number_nine_at_the_end_of_the_drive() {
    for (sector, count, expected) in
        [(23, 1, 0), (24, 1, 9), (22, 2, 0), (22, 3, 9), (0, 24, 0), (0, 25, 9), (29, 1, 9)]
    {
        let mut board = pack_with(at(0, 0, 0));
        let mut table = [Record::default(); 32];
        table[0] = Record { sector, count, byte0: READ, data: 0x400, ..Record::default() };
        assert_eq!(run_written(&mut board, &mut table, 1, 0).number, expected);
        assert_eq!(pick(&mut board, &mut table, 1, 0), expected);
    }
}

#[test]
fn looks_at_the_end_of_the_drive() {
    let board = pack_with(at(0, 0, 0));
    assert_eq!(look(&board, 0, 23), [23; 512]);
    for (sector, expected) in [(11, 0), (12, 0), (23, 0), (24, 10), (29, 10), (30, 10)] {
        assert_eq!(look_number(&board, 0, sector), expected);
        assert_eq!(look(&board, 0, sector).is_empty(), expected != 0);
    }
}
