//! Every line of document 01's "On both sides of each line", with the numbers
//! that the document gives written here by hand.

use second::bench::bench_board;
use second::board::Board;
use second::makers::block::Block;
use second::pick::pick;
use second::record::Record;
use second::run::run_written;
use second::walk::walk;

const WRITE: u8 = 1;
const READ: u8 = 2;

type Table = [Record; 32];

/// Puts blocks in the bench's memory, 32 bytes apart, as they are.
fn bench_with(blocks: &[Block]) -> Board {
    let mut board = bench_board(false);
    for (k, block) in blocks.iter().enumerate() {
        board.memory[32 * k..32 * k + 30].copy_from_slice(&block.bytes);
    }
    board
}

fn walked(board: &Board, start: u64) -> (u8, u64, Table) {
    let mut table = [Record::default(); 32];
    let reply = walk(board, &mut table, start);
    (reply.number, reply.commands, table)
}

/// The code that one command alone gets on the bench's ground.
fn code(block: Block) -> u8 {
    let board = bench_with(&[block]);
    let (number, commands, table) = walked(&board, 0);
    assert_eq!((number, commands), (0, 1));
    table[0].code
}

fn last_sector(command: u8) -> Block {
    Block::new(command).at(1, 1, 7).count(1).data(0x400)
}

#[test]
fn last_sector_of_the_drive() {
    for command in [READ, WRITE] {
        assert_eq!(code(last_sector(command)), 0x00);
        assert_eq!(code(last_sector(command).count(2)), 0x10);
    }
}

#[test]
fn cylinder_then_head_then_sector() {
    for command in [READ, WRITE] {
        assert_eq!(code(last_sector(command).at(2, 2, 7)), 0x10);
        assert_eq!(code(last_sector(command).at(1, 2, 7)), 0x11);
        assert_eq!(code(last_sector(command).at(1, 1, 8)), 0x12);
    }
}

#[test]
fn count_zero_before_the_cylinder() {
    assert_eq!(code(last_sector(READ).at(9, 1, 7).count(0)), 0x13);
    assert_eq!(code(last_sector(WRITE).at(9, 1, 7).count(0)), 0x13);
}

#[test]
fn end_of_memory() {
    for command in [READ, WRITE] {
        assert_eq!(code(last_sector(command).data(0xE00)), 0x00);
        assert_eq!(code(last_sector(command).data(0xE01)), 0x4B);
    }
}

#[test]
fn odd_next_address_before_the_command() {
    assert_eq!(code(Block::new(5).next(0x21)), 0x1E);
    assert_eq!(code(Block::new(5).next_address(0x21)), 0x14);
}

#[test]
fn protected_drive() {
    for (command, code) in [(WRITE, 0x90), (READ, 0x00)] {
        let mut board = bench_with(&[last_sector(command)]);
        board.units[0].drive.protected = true;
        let (number, commands, table) = walked(&board, 0);
        assert_eq!((number, commands, table[0].code), (0, 1, code));
    }
}

#[test]
fn where_an_iopb_may_lie() {
    let board = bench_board(false);
    assert_eq!(walk(&board, &mut [Record::default(); 32], 0xFE2).number, 0);
    assert_eq!(walk(&board, &mut [Record::default(); 32], 0xFE4).number, 3);
    let own = bench_with(&[Block::new(0).next(0)]);
    assert_eq!(walked(&own, 0).0, 4);
}

#[test]
fn smallest_memories() {
    let mut board = bench_board(false);
    board.memory = vec![0; 30];
    let (number, commands, _) = walked(&board, 0);
    assert_eq!((number, commands), (0, 1));
    board.memory = Vec::new();
    assert_eq!(walked(&board, 0).0, 3);
    assert_eq!(walked(&board, 1).0, 2);
}

#[test]
fn thirty_two_commands_and_thirty_three() {
    for (commands, expected) in [(32, (0, 32)), (33, (5, 0))] {
        let mut blocks: Vec<Block> = (1..commands).map(|k| Block::new(0).next(32 * k)).collect();
        blocks.push(Block::new(0));
        let (number, given, _) = walked(&bench_with(&blocks), 0);
        assert_eq!((number, given), expected);
    }
}

/// The document's deck, its bytes at its places, all others 00.
fn example() -> (Board, Table) {
    let mut board = bench_board(false);
    let parts = [
        (0x00, 0x22),
        (0x09, 0x01),
        (0x0C, 0x01),
        (0x0D, 0x02),
        (0x12, 0x04),
        (0x17, 0x20),
        (0x20, 0x21),
        (0x29, 0x01),
        (0x2B, 0x01),
        (0x32, 0x04),
        (0x37, 0x40),
        (0x40, 0x02),
    ];
    for (at, byte) in parts {
        board.memory[at] = byte;
    }
    let (number, commands, table) = walked(&board, 0);
    assert_eq!((number, commands), (0, 3));
    (board, table)
}

#[test]
fn the_deck_above() {
    let (mut board, mut table) = example();
    assert_eq!(pick(&mut board, &mut table, 3, 1), 6);

    let (mut board, mut table) = example();
    assert_eq!(pick(&mut board, &mut table, 3, 2), 0);

    let (mut board, mut table) = example();
    assert_eq!(pick(&mut board, &mut table, 3, 0), 0);
    assert_eq!(pick(&mut board, &mut table, 3, 0), 7);
    assert_eq!(pick(&mut board, &mut table, 3, 3), 8);
}

#[test]
fn the_deck_moves_sector_ten_to_sixteen() {
    let (mut board, mut table) = example();
    let run = run_written(&mut board, &mut table, 3, u64::MAX);
    assert_eq!((run.number, run.steps, run.finished), (0, 3, true));
    assert_eq!(board.memory[0x400..0x600], [10; 512]);
    assert_eq!(board.units[0].image[16 * 512..17 * 512], [10; 512]);
    assert_eq!(board.memory[0x00..0x04], [0x62, 0x00, 0x03, 0x00]);
    assert_eq!(board.memory[0x20..0x24], [0x61, 0x00, 0x03, 0x00]);
    assert_eq!(board.memory[0x40..0x44], [0xC2, 0x13, 0x03, 0x00]);
}

fn two_reads(second_data: u64) -> (Board, Table) {
    let read = Block::new(READ).at(0, 1, 1).count(1);
    let board = bench_with(&[read.data(0x400).next(0x20), read.data(second_data)]);
    let (number, commands, table) = walked(&board, 0);
    assert_eq!((number, commands), (0, 2));
    (board, table)
}

#[test]
fn two_reads_of_one_sector() {
    // Into separate memory they go either way.
    for (first, second) in [(0, 1), (1, 0)] {
        let (mut board, mut table) = two_reads(0x600);
        assert_eq!(pick(&mut board, &mut table, 2, first), 0);
        assert_eq!(pick(&mut board, &mut table, 2, second), 0);
    }
    // Into the same memory, as written.
    let (mut board, mut table) = two_reads(0x400);
    assert_eq!(pick(&mut board, &mut table, 2, 1), 6);
    assert_eq!(pick(&mut board, &mut table, 2, 0), 0);
    assert_eq!(pick(&mut board, &mut table, 2, 1), 0);
}
