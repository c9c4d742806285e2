//! How much would have fitted (ticket 4 of document 02): which commands tell a
//! number and which number it is, and that the close posts it from the record.
//! All numbers are written by hand.

use second::board::Board;
use second::drive::Drive;
use second::iopb::fields_at;
use second::makers::block::Block;
use second::pick::pick;
use second::range::Range;
use second::record::{causes, Record};
use second::run::{run_picks, run_written};
use second::walk::walk;

const WRITE: u8 = 1;
const READ: u8 = 2;

type Table = [Record; 32];
/// An address and a length of each range of a list.
type Pieces<'a> = &'a [(u32, u16)];

/// The bench's drive of 32 sectors.
fn bench() -> Drive {
    Drive::with_equal_heads(1, 1, 7)
}

/// A drive of 300 sectors: sector n is at n / 30, n / 10 mod 3, n mod 10.
fn three_hundred() -> Drive {
    Drive::with_equal_heads(9, 2, 9)
}

fn protected(drive: Drive) -> Drive {
    Drive { protected: true, ..drive }
}

/// A board of a drive and so many bytes of memory, all of them 238.
fn ground(drive: Drive, memory_bytes: usize) -> Board {
    let image = vec![17; 512 * drive.number_of_sectors() as usize];
    Board::with_unit_0(vec![238; memory_bytes], drive, image)
}

fn put(board: &mut Board, at: usize, bytes: &[u8]) {
    board.memory[at..at + bytes.len()].copy_from_slice(bytes);
}

fn put_list(board: &mut Board, at: usize, pieces: Pieces) {
    for (k, (address, length)) in pieces.iter().enumerate() {
        put(board, at + 8 * k, &length.to_be_bytes());
        put(board, at + 8 * k + 4, &address.to_be_bytes());
    }
}

fn walked(board: &Board, commands: u64) -> Table {
    let mut table = [Record { fitted: 99, ..Record::default() }; 32];
    let reply = walk(board, &mut table, 0);
    assert_eq!((reply.number, reply.commands), (0, commands));
    assert_eq!(table[commands as usize].fitted, 99, "past the last nothing changes");
    table
}

/// Code and byte 3 that one command alone closes with, the same in its record.
fn closed(mut board: Board, block: Block) -> (u8, u8) {
    put(&mut board, 0, &block.bytes);
    let mut table = walked(&board, 1);
    let told = (table[0].code, table[0].fitted);
    let reply = run_written(&mut board, &mut table, 1, u64::MAX);
    assert_eq!((reply.number, reply.finished), (0, true));
    assert_eq!((table[0].code, table[0].fitted), told, "a run changes neither");
    assert_eq!((board.memory[1], board.memory[3]), told);
    told
}

/// The same for a read and for a write.
fn both_ways(board: &Board, block: Block) -> (u8, u8) {
    let read = closed(board.clone(), block.command(READ));
    assert_eq!(closed(board.clone(), block.command(WRITE)), read);
    read
}

fn on_bench(block: Block) -> (u8, u8) {
    both_ways(&ground(bench(), 0x1000), block)
}

/// Of one sector at the start of the drive, to 400H.
fn first() -> Block {
    Block::new(READ).at(0, 0, 0).count(1).data(0x400)
}

/// The same from the bench's last sector on.
fn last() -> Block {
    first().at(1, 1, 7)
}

/// From sector n of the drive of 300 on.
fn far(sector: u64) -> Block {
    first().at(sector / 30, sector / 10 % 3, sector % 10)
}

#[test]
fn the_last_sector() {
    assert_eq!(on_bench(last()), (0x00, 0));
    assert_eq!(on_bench(last().count(2)), (0x10, 1));
    assert_eq!(on_bench(last().count(65_535)), (0x10, 1));
    assert_eq!(on_bench(last().at(1, 1, 6).count(65_535)), (0x10, 2));
    assert_eq!(on_bench(first().count(33)), (0x10, 32));
}

#[test]
fn about_255_sectors_before_the_end() {
    let board = ground(three_hundred(), 0x1000);
    for (sector, fitted) in [(47, 253), (46, 254), (45, 255), (44, 255), (43, 255), (0, 255)] {
        for count in [301, 65_535] {
            assert_eq!(both_ways(&board, far(sector).count(count)), (0x10, fitted));
        }
    }
    // 46 + 254 is just the drive, and then memory is too short: 6 sectors.
    assert_eq!(both_ways(&board, far(46).count(254)), (0x4B, 6));
    assert_eq!(both_ways(&board, far(46).count(255)), (0x10, 254));
    // 512 sectors, of which 8 bits would leave none.
    let board = ground(Drive::with_equal_heads(1, 0, 255), 0x1000);
    assert_eq!(both_ways(&board, first().count(513)), (0x10, 255));
    assert_eq!(both_ways(&board, first().at(1, 0, 0).count(257)), (0x10, 255));
    assert_eq!(both_ways(&board, first().at(1, 0, 1).count(257)), (0x10, 255));
    assert_eq!(both_ways(&board, first().at(1, 0, 2).count(257)), (0x10, 254));
}

#[test]
fn a_shorter_last_head() {
    // Two heads of 5 sectors and a last one of 2: 24 sectors on two cylinders.
    let drive = Drive { last_head_max_sector: 1, ..Drive::with_equal_heads(1, 2, 4) };
    let board = ground(drive, 0x4000);
    for (place, fitted) in [
        ((1, 2, 1), 1),
        ((1, 2, 0), 2),
        ((1, 1, 4), 3),
        ((1, 0, 0), 12),
        ((0, 2, 1), 13),
        ((0, 0, 0), 24),
    ] {
        let block = first().at(place.0, place.1, place.2);
        assert_eq!(both_ways(&board, block.count(u64::from(fitted))), (0x00, 0));
        assert_eq!(both_ways(&board, block.count(u64::from(fitted) + 1)), (0x10, fitted));
        assert_eq!(both_ways(&board, block.count(30)), (0x10, fitted));
    }
}

#[test]
fn the_largest_memory() {
    let board = ground(three_hundred(), 65_536);
    for (address, told) in [
        (0xFFFF, (0x4B, 0)),
        (0xFE01, (0x4B, 0)),
        (0xFE00, (0x4B, 1)),
        (0xFDFF, (0x4B, 1)),
        (0xFC01, (0x4B, 1)),
        (0xFC00, (0x4B, 2)),
        (0x400, (0x4B, 126)),
        (0x201, (0x4B, 126)),
        (0x200, (0x4B, 127)),
        (0x1FF, (0x4B, 127)),
        (1, (0x4B, 127)),
        (0, (0x00, 0)),
    ] {
        assert_eq!(both_ways(&board, first().count(128).data(address)), told, "{address:X}");
    }
    assert_eq!(both_ways(&board, first().count(129).data(0)), (0x4B, 128));
    assert_eq!(both_ways(&board, first().count(300).data(0)), (0x4B, 128));
}

#[test]
fn lengths_of_memory() {
    for (memory_bytes, address, count, told) in [
        (1_535, 512, 1, (0x00, 0)),
        (1_535, 511, 2, (0x00, 0)),
        (1_535, 512, 2, (0x4B, 1)),
        (1_535, 1_023, 1, (0x00, 0)),
        (1_535, 1_024, 1, (0x4B, 0)),
        (1_536, 1_024, 1, (0x00, 0)),
        (1_536, 1_024, 2, (0x4B, 1)),
        (1_536, 1_025, 2, (0x4B, 0)),
        (1_537, 1_025, 2, (0x4B, 1)),
        (1_537, 1, 4, (0x4B, 3)),
        (1_536, 1, 4, (0x4B, 2)),
        (30, 0, 1, (0x4B, 0)),
        (30, 30, 1, (0x4B, 0)),
        (100, 99, 3, (0x4B, 0)),
        (511, 0, 1, (0x4B, 0)),
        (512, 0, 2, (0x4B, 1)),
        (512, 1, 2, (0x4B, 0)),
        (1_023, 0, 2, (0x4B, 1)),
    ] {
        let board = ground(bench(), memory_bytes);
        let block = first().count(count).data(address);
        assert_eq!(both_ways(&board, block), told, "{count} at {address} of {memory_bytes}");
    }
}

#[test]
fn an_address_past_the_end_counts_as_none() {
    for address in [0x1000, 0x1001, 0x1200, 0x1_0400, 0x8000_0400, 0xFFFF_F000, 0xFFFF_FFFF] {
        assert_eq!(on_bench(first().data(address)), (0x4B, 0));
        assert_eq!(on_bench(first().count(32).data(address)), (0x4B, 0));
    }
}

#[test]
fn a_cylinder_above_its_maximum_tells_nothing() {
    for place in [(2, 0, 0), (2, 0, 1), (2, 2, 2), (3, 1, 7), (65_535, 255, 255)] {
        let block = first().at(place.0, place.1, place.2);
        assert_eq!(on_bench(block), (0x10, 0));
        assert_eq!(on_bench(block.count(40)), (0x10, 0));
        assert_eq!(on_bench(block.count(65_535).data(0xE00)), (0x10, 0));
    }
}

#[test]
fn other_codes_tell_nothing() {
    // Each is past an end as well.
    let past = last().count(9);
    assert_eq!(on_bench(past), (0x10, 1));
    assert_eq!(on_bench(past.at(1, 2, 7)), (0x11, 0));
    assert_eq!(on_bench(past.at(1, 1, 8)), (0x12, 0));
    assert_eq!(on_bench(past.count(0)), (0x13, 0));
    assert_eq!(on_bench(past.subfunction(1)), (0x14, 0));
    assert_eq!(on_bench(past.unit(1)), (0x42, 0));
    assert_eq!(on_bench(past.next(0x21)), (0x1E, 0));
    assert_eq!(closed(ground(bench(), 0x1000), past.command(0)), (0x00, 0));
    assert_eq!(closed(ground(bench(), 0x1000), past.command(3)), (0x14, 0));
}

#[test]
fn past_both_ends() {
    // From sector 28 on there are 4; from C00H on there are 2, from E00H on 1.
    assert_eq!(on_bench(first().at(1, 1, 4).count(9).data(0xC00)), (0x10, 4));
    assert_eq!(on_bench(first().at(1, 1, 4).count(5).data(0xE00)), (0x10, 4));
    assert_eq!(on_bench(first().at(1, 1, 4).count(4).data(0xC00)), (0x4B, 2));
    assert_eq!(on_bench(last().count(9)), (0x10, 1));
    assert_eq!(on_bench(last().count(2).data(0xE00)), (0x10, 1));
}

#[test]
fn a_protected_drive() {
    let board = ground(protected(bench()), 0x1000);
    let past_memory = first().count(2).data(0xE00);
    assert_eq!(closed(board.clone(), past_memory.command(WRITE)), (0x90, 0));
    assert_eq!(closed(board.clone(), past_memory), (0x4B, 1));
    assert_eq!(on_bench(past_memory), (0x4B, 1));
    let past_both = last().count(2).data(0xE00);
    assert_eq!(both_ways(&board, past_both), (0x10, 1));
}

/// Code and byte 3 of a command on the bench with this list at 400H.
fn with_list(block: Block, pieces: Pieces) -> (u8, u8) {
    let mut board = ground(bench(), 0x1000);
    put_list(&mut board, 0x400, pieces);
    both_ways(&board, block.list(0x400, pieces.len() as u64))
}

#[test]
fn link_lists() {
    assert_eq!(with_list(last().count(2), &[(0x800, 1_024)]), (0x10, 1));
    assert_eq!(with_list(last().count(9), &[(0xFFF, 7)]), (0x10, 1));
    assert_eq!(with_list(first(), &[(0xE02, 512)]), (0x4B, 0));
    // One sector would have fitted by the range's address, one by the range before.
    assert_eq!(with_list(first().count(2), &[(0xC02, 1_024)]), (0x4B, 0));
    assert_eq!(with_list(first().count(2), &[(0x800, 512), (0xE02, 512)]), (0x4B, 0));
    assert_eq!(with_list(first().count(2), &[(0xC00, 1_024)]), (0x00, 0));
    assert_eq!(with_list(first().count(2), &[(0xC02, 1_023)]), (0x1C, 0));
    assert_eq!(with_list(first().count(2), &[(0xC03, 1_024)]), (0x1F, 0));
    assert_eq!(with_list(first().at(2, 0, 0), &[(0x800, 512)]), (0x10, 0));
    let board = ground(bench(), 0x1000);
    assert_eq!(both_ways(&board, first().list(0xFF9, 1)), (0x4B, 0));
    assert_eq!(both_ways(&board, first().list(0xFFFF_FFFF, 32)), (0x4B, 0));
    assert_eq!(both_ways(&board, last().count(2).list(0xFF9, 1)), (0x10, 1));
}

#[test]
fn any_number_is_posted_whatever_the_code() {
    for (byte0, code) in [(READ, 0x00), (WRITE, 0x00), (0, 0x00), (7, 0x00), (READ, 0x10)]
        .into_iter()
        .chain([0x4B, 0x90, 0x1E, 0x13, 0xFF].map(|code| (WRITE, code)))
    {
        for fitted in [0, 1, 77, 255] {
            let mut board = ground(bench(), 0x1000);
            let record = Record { data: 0x400, count: 1, byte0, code, fitted, ..Record::default() };
            let mut table = [record; 32];
            assert!(causes(&board, &table, 1).is_empty());
            assert_eq!(pick(&mut board, &mut table, 1, 0), 0);
            assert_eq!(board.memory[3], fitted);
            assert_eq!(table[0], Record { taken: 1, ..record });
            assert_eq!(table[1..], [record; 31]);
        }
    }
}

#[test]
fn a_number_by_hand_with_a_list() {
    let mut board = ground(bench(), 0x1000);
    let mut record = Record { count: 2, byte0: READ, ranges: 2, fitted: 200, ..Record::default() };
    record.list[0] = Range { address: 0x800, length: 1_000 };
    record.list[1] = Range { address: 0x600, length: 24 };
    let mut table = [record; 32];
    let reply = run_picks(&mut board, &mut table, 1, &[0]);
    assert_eq!((reply.steps, board.memory[3]), (1, 238), "nothing before the close");
    assert_eq!(run_picks(&mut board, &mut table, 1, &[0]).steps, 1);
    assert_eq!(board.memory[3], 200);
}

/// A read of sector 1 to 200H, and at 210H a command past an end; the sector has
/// other bytes there.
fn laid_over(second: Block, over: Block) -> (Board, Table) {
    let mut board = ground(bench(), 0x1000);
    board.units[0].image[512 + 0x10..512 + 0x10 + 30].copy_from_slice(&over.bytes);
    put(&mut board, 0, &first().at(0, 0, 1).data(0x200).next(0x210).bytes);
    put(&mut board, 0x210, &second.bytes);
    let table = walked(&board, 2);
    (board, table)
}

#[test]
fn data_over_the_iopb_changes_nothing() {
    for (second, fitted) in [
        (last().count(2), 1),
        (first().count(9), 6),
        (first().at(2, 0, 0).count(9), 0),
        (first().at(0, 1, 0).count(65_535), 24),
    ] {
        // It would tell 12 by its own bytes, and has 99 in byte 3.
        let over = first().at(1, 0, 4).count(13).byte(3, 99);
        let (mut board, mut table) = laid_over(second, over);
        assert_eq!(pick(&mut board, &mut table, 2, 1), 6);
        assert_eq!(pick(&mut board, &mut table, 2, 0), 0);
        assert_eq!(fields_at(&board, 0x210).internal, 99);
        assert_eq!(pick(&mut board, &mut table, 2, 1), 0);
        assert_eq!(fields_at(&board, 0x210).internal, fitted);
        assert_eq!(fields_at(&board, 0x210).count, 13, "nothing else of it is written");
    }
}

#[test]
fn the_number_is_that_of_the_walk() {
    let mut board = ground(bench(), 0x1000);
    put(&mut board, 0, &last().count(2).next(32).bytes);
    put(&mut board, 32, &first().count(9).bytes);
    let mut table = walked(&board, 2);
    assert_eq!((table[0].fitted, table[1].fitted), (1, 6));
    // Another count and address, a larger drive, and a longer memory.
    put(&mut board, 8, &[0, 40, 0, 0, 0, 0]);
    put(&mut board, 32 + 0x10, &[0, 0, 0, 0]);
    board.units[0].drive = three_hundred();
    board.units[0].image = vec![0; 512 * 300];
    board.memory.resize(0x2000, 0);
    let reply = run_written(&mut board, &mut table, 2, u64::MAX);
    assert_eq!((reply.number, reply.steps), (0, 2));
    assert_eq!((board.memory[3], board.memory[32 + 3]), (1, 6));
}

#[test]
fn a_refused_walk_keeps_the_numbers() {
    let mut board = ground(bench(), 0x1000);
    put(&mut board, 0, &last().count(2).next(0).bytes);
    let junk = [Record { fitted: 77, ..Record::default() }; 32];
    let mut table = junk;
    assert_eq!(walk(&board, &mut table, 0).number, 4);
    assert_eq!(walk(&board, &mut table, 1).number, 2);
    assert_eq!(table, junk);
    put(&mut board, 0, &first().bytes);
    assert_eq!(walk(&board, &mut table, 0).number, 0);
    assert_eq!((table[0].fitted, table[0].unit, table[1].fitted), (0, 0, 77));
}

#[test]
fn ranges_have_sixteen_bits() {
    let board = ground(bench(), 0x1000);
    for ranges in [33, 255, 256, 257, 0x8001, 65_503, 65_535] {
        let mut record = Record { count: 1, byte0: READ, ranges, ..Record::default() };
        record.list[0] = Range { address: 0x800, length: 512 };
        assert_eq!(pick(&mut board.clone(), &mut [record; 32], 1, 0), 9, "{ranges} ranges");
        record.ranges = 1;
        assert_eq!(pick(&mut board.clone(), &mut [record; 32], 1, 0), 0);
    }
}
