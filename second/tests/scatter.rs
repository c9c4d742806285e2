//! Link lists (ticket 2 of document 02): codes, what is copied, what moves,
//! conflicts and number 9, with the numbers written by hand.

use second::bench::{bench, bench_board};
use second::board::Board;
use second::drive::Drive;
use second::makers::block::Block;
use second::pick::pick;
use second::range::Range;
use second::record::Record;
use second::run::{run_picks, run_written};
use second::walk::walk;

const WRITE: u8 = 1;
const READ: u8 = 2;
/// Where the lists of these tests lie.
const LIST: usize = 0x400;

type Table = [Record; 32];
type Pieces<'a> = &'a [(u32, u16)];

/// Puts a list in memory byte by byte, as in Table 8-2 of the manual.
fn put_list(board: &mut Board, at: usize, pieces: Pieces) {
    for (k, (address, length)) in pieces.iter().enumerate() {
        let element = &mut board.memory[at + 8 * k..at + 8 * k + 8];
        element[0..2].copy_from_slice(&length.to_be_bytes());
        element[2..4].copy_from_slice(&[0x9A, 0x3D]);
        element[4..8].copy_from_slice(&address.to_be_bytes());
    }
}

fn put_block(board: &mut Board, at: usize, block: Block) {
    board.memory[at..at + 30].copy_from_slice(&block.bytes);
}

/// The bench's ground; byte j of sector n is n + j, and of memory from 600H on
/// byte j is 3 times its distance from there, all in 8 bits.
fn ground() -> Board {
    let mut board = bench_board(false);
    for (at, byte) in board.units[0].image.iter_mut().enumerate() {
        *byte = (at / 512 + at % 512) as u8;
    }
    for (k, byte) in board.memory[0x600..].iter_mut().enumerate() {
        *byte = (3 * k) as u8;
    }
    board
}

/// A transfer of so many sectors from sector 8 on, its list at the usual place.
fn listed(command: u8, count: u64, pieces: Pieces) -> Block {
    Block::new(command).at(0, 1, 0).count(count).list(LIST as u64, pieces.len() as u64)
}

fn one(block: Block, pieces: Pieces) -> (Board, Table) {
    let mut board = ground();
    put_list(&mut board, LIST, pieces);
    put_block(&mut board, 0, block);
    let table = walked(&board, 1);
    (board, table)
}

fn walked(board: &Board, commands: u64) -> Table {
    let mut table = [Record::default(); 32];
    let reply = walk(board, &mut table, 0);
    assert_eq!((reply.number, reply.commands), (0, commands));
    table
}

/// The code of a transfer of so many sectors, as a read and as a write.
fn code(count: u64, pieces: Pieces) -> u8 {
    let (_, read) = one(listed(READ, count, pieces), pieces);
    let (_, write) = one(listed(WRITE, count, pieces), pieces);
    assert_eq!(read[0].code, write[0].code);
    read[0].code
}

#[test]
fn the_number_of_elements() {
    // 32 x 16 bytes are a sector; so are the first 31 with one of them longer.
    let mut pieces: Vec<(u32, u16)> = (0..32).map(|k| (0x600 + 32 * k, 16)).collect();
    let block = listed(READ, 1, &[]);
    for (byte, code, ranges) in
        [(0x00, 0x00, 32), (0x07, 0x00, 32), (0xF8, 0x1C, 31), (0x08, 0x1C, 1), (0x17, 0x1C, 2)]
    {
        let (_, table) = one(block.byte(6, byte), &pieces);
        assert_eq!((table[0].code, table[0].ranges), (code, ranges), "byte 6 = {byte:02X}");
    }
    pieces[5].1 = 32;
    for (byte, code) in [(0x00, 0x1C), (0xF8, 0x00), (0xFF, 0x00), (0xF0, 0x1C)] {
        assert_eq!(one(block.byte(6, byte), &pieces).1[0].code, code, "byte 6 = {byte:02X}");
    }
}

#[test]
fn where_the_list_lies() {
    let pieces = [(0x600, 200), (0x800, 312)];
    for (at, code, ranges) in [
        (0x401, 0x00, 2),
        (0xFF0, 0x00, 2),
        (0xFF1, 0x4B, 0),
        (0xFF8, 0x4B, 0),
        (0x1000, 0x4B, 0),
        (0xFFFF_FFF0, 0x4B, 0),
    ] {
        let mut board = ground();
        let inside = ((0x1000_usize.saturating_sub(at)) / 8).min(2);
        put_list(&mut board, at, &pieces[..inside]);
        put_block(&mut board, 0, listed(READ, 1, &pieces).data(at as u64));
        let record = walked(&board, 1)[0];
        assert_eq!((record.code, record.ranges), (code, ranges), "list at {at:X}");
    }
}

#[test]
fn the_lengths_add_up() {
    for (first, second, expected) in [
        (200, 312, 0x00),
        (200, 311, 0x1C),
        (200, 313, 0x1C),
        (200, 824, 0x1C),
        (201, 311, 0x00),
        (0, 512, 0x00),
        (512, 0, 0x00),
        (0, 0, 0x1C),
    ] {
        assert_eq!(code(1, &[(0x600, first), (0x800, second)]), expected, "{first} + {second}");
    }
    assert_eq!(code(2, &[(0x600, 512), (0x800, 512)]), 0x00);
    assert_eq!(code(1, &[(0x600, 512), (0x800, 512)]), 0x1C);
}

/// Memory of 65,536 bytes, which holds every range: too much by 65,536.
#[test]
fn the_lengths_are_added_in_full() {
    for (pieces, count, expected) in [
        (vec![(0, 32_768), (0x8000, 32_768), (0x600, 512)], 1, 0x1C),
        (vec![(0, 32_768), (0, 32_768)], 128, 0x00),
        (vec![(0x600, 512)], 129, 0x1C),
    ] {
        let drive = Drive::with_equal_heads(0, 0, 255);
        let mut board = Board::with_unit_0(vec![0; 65_536], drive, vec![0; 131_072]);
        put_list(&mut board, LIST, &pieces);
        put_block(&mut board, 0, listed(READ, count, &pieces).at(0, 0, 0));
        assert_eq!(walked(&board, 1)[0].code, expected);
    }
}

#[test]
fn odd_addresses_and_the_end_of_memory() {
    for (address, length, expected) in [
        (0x900, 12, 0x00),
        (0x901, 12, 0x1F),
        (0x901, 0, 0x1F),
        (0xFF4, 12, 0x00),
        (0xFF4, 13, 0x4B),
        (0xFF6, 12, 0x4B),
        (0x1000, 0, 0x00),
        (0x1002, 0, 0x4B),
        (0x1001, 0, 0x1F),
        (0xFFFF_FFF4, 12, 0x4B),
        (0xFFFF_FFFE, 0, 0x4B),
    ] {
        let edge = (address, length);
        let other = (0x600, 512 - length);
        assert_eq!(code(1, &[edge, other]), expected, "{address:X} {length}");
        assert_eq!(code(1, &[other, edge]), expected, "{address:X} {length}");
    }
}

#[test]
fn the_first_that_applies() {
    // 1CH before 1FH before 4BH.
    assert_eq!(code(1, &[(0x601, 200), (0x800, 311)]), 0x1C);
    assert_eq!(code(1, &[(0x600, 200), (0x2000, 311)]), 0x1C);
    assert_eq!(code(1, &[(0x2000, 200), (0x601, 312)]), 0x1F);
    let right: Pieces = &[(0x600, 512)];
    let wrong: Pieces = &[(0x601, 511)];
    for pieces in [right, wrong] {
        let read = listed(READ, 1, pieces);
        for (block, expected) in [
            (read.command(0), 0x14),
            (read.command(3), 0x14),
            (read.subfunction(1), 0x14),
            (read.next(0x21), 0x1E),
            (read.command(0).next(0x21), 0x1E),
            (read.unit(1), 0x42),
            (read.count(0), 0x13),
            (read.at(2, 0, 0), 0x10),
            (read.at(0, 2, 0), 0x11),
            (read.at(0, 0, 8), 0x12),
            (read.at(1, 1, 7).count(2), 0x10),
        ] {
            let (_, table) = one(block, pieces);
            assert_eq!((table[0].code, table[0].ranges), (expected, 0));
        }
        let mut board = one(listed(WRITE, 1, pieces), pieces).0;
        board.units[0].drive.protected = true;
        let record = walked(&board, 1)[0];
        assert_eq!((record.code, record.ranges), (0x90, 0));
    }
}

#[test]
fn the_walk_copies_the_list() {
    let junk = Record {
        ranges: 77,
        list: [Range { address: 5, length: 6 }; 32],
        count: 9,
        ..Record::default()
    };
    // 00, 1CH, 1FH and the last 4BH keep the ranges.
    for (second, expected) in
        [((0xA00, 412), 0x00), ((0xA00, 411), 0x1C), ((0xA01, 412), 0x1F), ((0xFF0, 412), 0x4B)]
    {
        let pieces = [(0x600, 100), second];
        let (board, _) = one(listed(READ, 1, &pieces), &pieces);
        let mut table = [junk; 32];
        assert_eq!(walk(&board, &mut table, 0).commands, 1);
        let mut list = [Range::default(); 32];
        list[0] = Range { address: 0x600, length: 100 };
        list[1] = Range { address: second.0, length: u32::from(second.1) };
        assert_eq!((table[0].code, table[0].ranges, table[0].data), (expected, 2, 0x400));
        assert_eq!(table[0].list, list);
        assert_eq!(table[1], junk, "past the last command nothing changes");
    }
    // Without a list every range is set to 0.
    let (board, _) = one(Block::new(READ).count(1).data(0x600), &[]);
    let mut table = [junk; 32];
    assert_eq!(walk(&board, &mut table, 0).commands, 1);
    assert_eq!((table[0].code, table[0].ranges), (0x00, 0));
    assert_eq!(table[0].list, [Range::default(); 32]);
    let before = table;
    assert_eq!(walk(&board, &mut table, 1).number, 2);
    assert_eq!(table, before, "a refused walk changes nothing");
}

/// Byte j of sector n, as the ground has it.
fn of_sector(n: usize, j: usize) -> u8 {
    (n + j) as u8
}

#[test]
fn a_read_straddles_its_ranges() {
    // Sector 8: 300 bytes, none, 1 and 211 of 711; sector 9: the other 500 and 12.
    let pieces = [(0x600, 300), (0xF00, 0), (0x800, 1), (0x900, 711), (0xE00, 12)];
    let (mut board, mut table) = one(listed(READ, 2, &pieces), &pieces);
    let before = board.clone();
    assert_eq!(pick(&mut board, &mut table, 1, 0), 0);
    for j in 0..300 {
        assert_eq!(board.memory[0x600 + j], of_sector(8, j));
    }
    assert_eq!(board.memory[0x800], of_sector(8, 300));
    assert_eq!(board.memory[0x801], before.memory[0x801]);
    for j in 0..211 {
        assert_eq!(board.memory[0x900 + j], of_sector(8, 301 + j));
    }
    assert_eq!(board.memory[0x900 + 211..], before.memory[0x900 + 211..], "one step, one sector");
    assert_eq!(board.memory[..4], before.memory[..4]);
    assert_eq!(pick(&mut board, &mut table, 1, 0), 0);
    for j in 0..500 {
        assert_eq!(board.memory[0x900 + 211 + j], of_sector(9, j));
    }
    for j in 0..12 {
        assert_eq!(board.memory[0xE00 + j], of_sector(9, 500 + j));
    }
    assert_eq!(board.memory[0xE0C..], before.memory[0xE0C..]);
    assert_eq!(board.memory[..4], [0x52, 0x00, 0x03, 0x00]);
    assert_eq!(board.units[0].image, before.units[0].image);
}

#[test]
fn a_write_gathers_its_ranges() {
    let pieces = [(0x700, 511), (0x600, 2), (0xA00, 511)];
    let (mut board, mut table) = one(listed(WRITE, 2, &pieces), &pieces);
    let before = board.clone();
    let run = run_written(&mut board, &mut table, 1, u64::MAX);
    assert_eq!((run.number, run.steps, run.finished), (0, 2, true));
    let mut expected = before.memory[0x700..0x8FF].to_vec();
    expected.extend(&before.memory[0x600..0x602]);
    expected.extend(&before.memory[0xA00..0xBFF]);
    assert_eq!(board.units[0].image[8 * 512..10 * 512], expected);
    assert_eq!(board.units[0].image[..8 * 512], before.units[0].image[..8 * 512]);
    assert_eq!(board.memory[4..], before.memory[4..]);
}

#[test]
fn overlapping_ranges_fill_in_list_order() {
    // One inside the other: bytes 640H to 6AFH get what the later range has.
    for (pieces, inner, outer) in
        [([(0x600, 400), (0x640, 112)], 400, 0), ([(0x640, 112), (0x600, 400)], 112 + 64, 112)]
    {
        let (mut board, mut table) = one(listed(READ, 1, &pieces), &pieces);
        assert_eq!(pick(&mut board, &mut table, 1, 0), 0);
        for j in 0..112 {
            assert_eq!(board.memory[0x640 + j], of_sector(8, inner + j));
        }
        for j in 0..64 {
            assert_eq!(board.memory[0x600 + j], of_sector(8, outer + j));
        }
    }
    // Over two steps the later step wins; a write takes the bytes twice.
    let pieces = [(0x600, 512), (0x700, 512)];
    let (mut board, mut table) = one(listed(READ, 2, &pieces), &pieces);
    run_written(&mut board, &mut table, 1, u64::MAX);
    assert_eq!(board.memory[0x6FF], of_sector(8, 255));
    assert_eq!(board.memory[0x700], of_sector(9, 0));
    let (mut board, mut table) = one(listed(WRITE, 2, &pieces), &pieces);
    let memory = board.memory.clone();
    run_written(&mut board, &mut table, 1, u64::MAX);
    assert_eq!(board.units[0].image[8 * 512..9 * 512], memory[0x600..0x800]);
    assert_eq!(board.units[0].image[9 * 512..10 * 512], memory[0x700..0x900]);
}

#[test]
fn one_range_is_as_good_as_none() {
    for command in [READ, WRITE] {
        let pieces = [(0x702, 1024)];
        let (mut listed_board, mut table) = one(listed(command, 2, &pieces), &pieces);
        run_written(&mut listed_board, &mut table, 1, u64::MAX);
        let plain = Block::new(command).at(0, 1, 0).count(2).data(0x702);
        let (mut board, mut table) = one(plain, &pieces);
        run_written(&mut board, &mut table, 1, u64::MAX);
        assert_eq!(board.units[0].image, listed_board.units[0].image);
        assert_eq!(board.memory[30..], listed_board.memory[30..]);
    }
}

#[test]
fn the_list_is_read_at_the_walk_alone() {
    // The first sector comes to lie over the list; the second goes by the copy.
    let pieces = [(0x3F0, 500), (0x900, 524)];
    let (mut board, mut table) = one(listed(READ, 2, &pieces), &pieces);
    assert_eq!(pick(&mut board, &mut table, 1, 0), 0);
    assert_eq!(board.memory[LIST], of_sector(8, 16));
    assert_eq!(pick(&mut board, &mut table, 1, 0), 0);
    assert_eq!(board.memory[0x900 + 12], of_sector(9, 0));
    assert_eq!(board.memory[0x900 + 523], of_sector(9, 511));
}

/// Two transfers of one sector each, of sectors 8 and 9, and the numbers that
/// picks of 1, 0 and 1 again get.
fn picks_of(commands: (u8, u8), first: Pieces, second: Pieces) -> [u8; 3] {
    let mut board = ground();
    put_list(&mut board, LIST, first);
    put_list(&mut board, 0x500, second);
    put_block(&mut board, 0, listed(commands.0, 1, first).next(0x20));
    let other = listed(commands.1, 1, second).at(0, 1, 1).data(0x500);
    put_block(&mut board, 0x20, other);
    let mut table = walked(&board, 2);
    [1, 0, 1].map(|place| pick(&mut board, &mut table, 2, place))
}

const FREE: [u8; 3] = [0, 0, 7];
const WAITS: [u8; 3] = [6, 0, 0];

#[test]
fn conflicts_by_ranges() {
    let first: Pieces = &[(0x600, 101), (0xA00, 300), (0x802, 111)];
    for (second, expected) in [
        // Beside each range, and over its last byte.
        ([(0xC00, 500), (0x666, 12)], FREE),
        ([(0xC00, 500), (0x664, 12)], WAITS),
        ([(0xC00, 500), (0x872, 12)], FREE),
        ([(0xC00, 500), (0x870, 12)], WAITS),
        ([(0xB2C, 12), (0xC00, 500)], FREE),
        ([(0xB2A, 12), (0xC00, 500)], WAITS),
        // Among the ranges, hull over hull; and length 0 within a range.
        ([(0x700, 200), (0x8C0, 312)], FREE),
        ([(0xA10, 0), (0xC00, 512)], FREE),
        // The first command's list and the own one are nobody's data.
        ([(0x400, 100), (0xC00, 412)], FREE),
        ([(0x4F0, 100), (0xC00, 412)], FREE),
        // The status bytes of the first.
        ([(0x02, 2), (0xC00, 510)], WAITS),
        ([(0x04, 2), (0xC00, 510)], FREE),
    ] {
        assert_eq!(picks_of((READ, READ), first, &second), expected, "{second:X?}");
        assert_eq!(picks_of((WRITE, READ), first, &second), expected, "{second:X?}");
    }
    assert_eq!(picks_of((WRITE, WRITE), first, first), FREE);
    assert_eq!(picks_of((READ, WRITE), first, first), WAITS);
}

/// The number of every call on a table of one record: sectors 8 and 9, with
/// these ranges, and one thing changed.
fn number_with(pieces: Pieces, change: impl Fn(&mut Record)) -> u8 {
    let mut board = ground();
    let mut table = [Record::default(); 32];
    let ranges = pieces.len() as u16;
    let (data, sector, count) = (0xFFFF_FFFF, 8, 2);
    table[0] = Record { data, sector, count, byte0: 0x12, ranges, ..Record::default() };
    for (range, (address, length)) in table[0].list.iter_mut().zip(pieces) {
        *range = Range { address: *address, length: u32::from(*length) };
    }
    change(&mut table[0]);
    let before = (board.clone(), table);
    let numbers = [
        run_written(&mut board, &mut table, 1, 0).number,
        run_picks(&mut board, &mut table, 1, &[]).number,
    ];
    assert_eq!((&board, &table), (&before.0, &before.1));
    assert_eq!(pick(&mut board, &mut table, 1, 0), numbers[0]);
    assert_eq!(numbers[0], numbers[1]);
    numbers[0]
}

#[test]
fn number_nine_looks_at_every_range_and_their_sum() {
    let full: Vec<(u32, u16)> = (0..32).map(|k| (0x600 + 40 * k, 32)).collect();
    for (ranges, number) in [(32, 0), (33, 9), (288, 9), (0x8020, 9), (u16::MAX, 9), (31, 9)] {
        assert_eq!(number_with(&full, |record| record.ranges = ranges), number);
    }
    for (first, second, number) in [
        ((0x600, 600), (0xA00, 424), 0),
        ((0x600, 600), (0xA00, 423), 9),
        ((0x600, 600), (0xA00, 425), 9),
        ((0x601, 600), (0xA01, 424), 0),
        ((0x600, 600), (0xE58, 424), 0),
        ((0x600, 600), (0xE59, 424), 9),
        ((0xE59, 424), (0x600, 600), 9),
        ((0x600, 1024), (0x1000, 0), 0),
        ((0x600, 1024), (0x1001, 0), 9),
        ((0x600, 1024), (0xFFFF_FFFF, 0), 9),
        ((0x600, 1023), (0xFFFF_FFFF, 1), 9),
        ((0x600, 1024), (0, 65_535), 9),
    ] {
        assert_eq!(number_with(&[first, second], |_| ()), number, "{first:X?} {second:X?}");
    }
    for (count, number) in [(2, 0), (1, 9), (3, 9), (130, 9), (0, 9)] {
        assert_eq!(number_with(&[(0x600, 1024)], |record| record.count = count), number);
    }
    // Byte 0 has no say, nor has what moves nothing.
    let bad: Pieces = &[(0xFFFF_FFFF, 9)];
    assert_eq!(number_with(bad, |record| record.code = 0x1C), 0);
    assert_eq!(number_with(bad, |record| record.byte0 = 0x10), 0);
    assert_eq!(number_with(bad, |record| (record.byte0, record.ranges) = (0, u16::MAX)), 0);
    assert_eq!(number_with(bad, |record| record.byte0 = 2), 9);
    assert_eq!(number_with(&[(0x600, 1024)], |record| record.byte0 = 2), 0);
    assert_eq!(number_with(bad, |record| (record.ranges, record.data) = (0, 0xC00)), 0);
    assert_eq!(number_with(bad, |record| (record.ranges, record.data) = (0, 0xC01)), 9);
}

#[test]
fn lengths_that_are_right_in_16_bits_get_nine() {
    let mut board = ground();
    board.memory = vec![0; 65_536];
    let mut table = [Record::default(); 32];
    table[0] = Record { sector: 8, count: 2, byte0: 2, ranges: 3, ..Record::default() };
    table[0].list[0].length = 32_768;
    table[0].list[1].length = 32_768;
    table[0].list[2].length = 1_024;
    assert_eq!(pick(&mut board, &mut table, 1, 0), 9);
    table[0].list[1].length = 0;
    table[0].list[0].length = 0;
    assert_eq!(pick(&mut board, &mut table, 1, 0), 0);
}

#[test]
fn a_step_in_the_middle_of_a_list() {
    let mut board = ground();
    let before = board.clone();
    let mut table = [Record::default(); 32];
    table[0] = Record { sector: 8, count: 3, taken: 1, byte0: 2, ranges: 2, ..Record::default() };
    table[0].list[0] = Range { address: 0x601, length: 700 };
    table[0].list[1] = Range { address: 0xA01, length: 836 };
    assert_eq!(pick(&mut board, &mut table, 1, 0), 0);
    for j in 0..188 {
        assert_eq!(board.memory[0x601 + 512 + j], of_sector(9, j));
    }
    for j in 0..324 {
        assert_eq!(board.memory[0xA01 + j], of_sector(9, 188 + j));
    }
    assert_eq!(board.memory[..0x801], before.memory[..0x801]);
    assert_eq!(board.memory[0xA01 + 324..], before.memory[0xA01 + 324..]);
}

#[test]
fn the_most_steps() {
    let drive = Drive::with_equal_heads(15, 15, 15);
    let image = vec![7; 512 * 4_096];
    let mut board = Board::with_unit_0(vec![0; 65_536], drive, image);
    put_list(&mut board, 0x2000, &[(0, 65_520); 32]);
    for k in 0..32 {
        let block = Block::new(READ).count(4_095).list(0x2000, 32);
        let block = if k < 31 { block.next(32 * (k + 1)) } else { block };
        put_block(&mut board, 32 * k as usize, block);
    }
    let mut table = walked(&board, 32);
    let run = run_written(&mut board, &mut table, 32, 131_039);
    assert_eq!((run.number, run.steps, run.finished), (0, 131_039, false));
    let run = run_written(&mut board, &mut table, 32, u64::MAX);
    assert_eq!((run.number, run.steps, run.finished), (0, 1, true));
}

#[test]
fn a_deck_with_a_list() {
    // Record 1 has the list: 100 bytes at 400H, 412 at an address to be tried.
    for (address, code) in [(0x600u32, "0 00"), (0x601, "0 1F"), (0xE64, "0 00"), (0xE66, "0 4B")] {
        let mut deck = vec![0; 64];
        deck[..10].copy_from_slice(&[0x12, 0, 0, 0, 0, 0, 0x10, 0, 0, 1]);
        deck[0x13] = 0x20;
        deck[32..40].copy_from_slice(&[0, 100, 0, 0, 0, 0, 4, 0]);
        deck[40..44].copy_from_slice(&[1, 0x9C, 0, 0]);
        deck[44..48].copy_from_slice(&address.to_be_bytes());
        assert_eq!(bench(&deck).lines(), [code, "steps 1"]);
        deck[41] = 0x9D;
        assert_eq!(bench(&deck).lines(), ["0 1C", "steps 1"]);
    }
}
