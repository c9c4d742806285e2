//! The founders' decisions that stand over document 01, and the table's every
//! line of number 9, with the numbers written by hand.

use second::bench::bench_board;
use second::board::Board;
use second::drive::Drive;
use second::iopb::{fields_at, view};
use second::look::{look, look_number};
use second::makers::block::Block;
use second::pick::pick;
use second::record::Record;
use second::run::{run_picks, run_written};
use second::walk::walk;

type Table = [Record; 32];

fn one(block: Block) -> (Board, Table) {
    let mut board = bench_board(false);
    board.memory[..30].copy_from_slice(&block.bytes);
    let mut table = [Record::default(); 32];
    assert_eq!(walk(&board, &mut table, 0).number, 0);
    (board, table)
}

#[test]
fn the_unit_has_three_bits() {
    let read = Block::new(2).count(1).data(0x400);
    for (byte, code) in [(0x00, 0x00), (0x04, 0x42), (0x01, 0x42), (0x07, 0x42), (0xF8, 0x00)] {
        let (board, table) = one(read.byte(5, byte));
        assert_eq!(table[0].code, code, "byte 5 = {byte:02X}");
        assert_eq!(fields_at(&board, 0).unit, u64::from(byte & 7));
    }
}

#[test]
fn status_byte_two_whatever_the_code() {
    for (protected, expected) in [(false, 0x03), (true, 0x13)] {
        for block in [Block::new(0), Block::new(9), Block::new(2), Block::new(0).next(1)] {
            // Since ticket 5 the command's own unit is asked; unit 4 is never there.
            for (unit, expected) in [(0, expected), (4, 0x03)] {
                let (mut board, mut table) = one(block.unit(unit));
                board.units[0].drive.protected = protected;
                assert_eq!(pick(&mut board, &mut table, 1, 0), 0);
                assert_eq!(board.memory[2], expected);
            }
        }
    }
}

#[test]
fn a_close_writes_bytes_0_to_3_alone() {
    let (mut board, mut table) = one(Block::new(9).unit(3).count(7));
    let before = board.clone();
    assert_eq!(pick(&mut board, &mut table, 1, 0), 0);
    assert_eq!(board.memory[..4], [0xC9, 0x14, 0x03, 0x00]);
    assert_eq!(board.memory[4..], before.memory[4..]);
    assert_eq!(board.units[0].image, before.units[0].image);
}

#[test]
fn code_00_with_another_command_is_no_transfer() {
    for (byte0, closed) in [(0x00, 0x40), (0x07, 0x47), (0x97, 0x57), (0xFF, 0x7F)] {
        let mut board = bench_board(false);
        let before = board.clone();
        let mut table = [Record::default(); 32];
        let (data, sector, count) = (u32::MAX, u32::MAX, u16::MAX);
        table[0] = Record { iopb: 0x80, data, sector, count, byte0, ..Record::default() };
        let run = run_written(&mut board, &mut table, 1, u64::MAX);
        assert_eq!((run.number, run.steps, run.finished), (0, 1, true));
        assert_eq!(board.memory[0x80..0x84], [closed, 0x00, 0x03, 0x00]);
        assert_eq!(board.memory[0x84..], before.memory[0x84..]);
        assert_eq!(board.units[0].image, before.units[0].image);
    }
}

#[test]
fn no_commands_is_finished_at_once() {
    let mut board = bench_board(false);
    let mut table = [Record::default(); 32];
    let run = run_picks(&mut board, &mut table, 0, &[0, 1, 255]);
    assert_eq!((run.number, run.steps, run.refused, run.finished), (0, 0, 3, true));
    let run = run_written(&mut board, &mut table, 0, 0);
    assert_eq!((run.number, run.steps, run.finished), (0, 0, true));
    for place in [0, 1, 31, 32, u64::from(u32::MAX)] {
        assert_eq!(pick(&mut board, &mut table, 0, place), 8);
    }
}

#[test]
fn errs_and_done_at_the_close() {
    // Copied byte 0, its code by the document, the byte after the close.
    for (byte0, code, closed) in [
        (0x00, 0x00, 0x40),
        (0x80, 0x00, 0x40),
        (0xC0, 0x00, 0x40),
        (0x10, 0x14, 0xD0),
        (0x05, 0x14, 0xC5),
        (0xC5, 0x14, 0xC5),
        (0x02, 0x13, 0xC2),
    ] {
        let (mut board, mut table) = one(Block::new(0).byte(0, byte0));
        assert_eq!(table[0].code, code);
        assert_eq!(pick(&mut board, &mut table, 1, 0), 0);
        assert_eq!(board.memory[0], closed);
    }
}

/// Place 0 reads sectors 7 and 8 to 400H; its record with one thing changed.
fn number_with(change: impl Fn(&mut Record), protected: bool) -> u8 {
    let (mut board, mut table) = one(Block::new(2).at(0, 0, 7).count(2).data(0x400));
    change(&mut table[0]);
    board.units[0].drive.protected = protected;
    run_written(&mut board, &mut table, 1, 0).number
}

#[test]
fn number_nine_on_both_sides() {
    for (iopb, number) in [(0xFE2, 0), (0xFE3, 9), (0xFFFF_FFE2, 9)] {
        assert_eq!(number_with(|record| record.iopb = iopb, false), number);
    }
    for (data, number) in [(0xC00, 0), (0xC01, 9), (0xFFFF_FC00, 9)] {
        assert_eq!(number_with(|record| record.data = data, false), number);
    }
    for (sector, number) in [(30, 0), (31, 9), (0xFFFF_FFFE, 9)] {
        assert_eq!(number_with(|record| record.sector = sector, false), number);
    }
    for (taken, number) in [(2, 0), (3, 9), (u32::MAX, 9)] {
        assert_eq!(number_with(|record| record.taken = taken, false), number);
    }
    for (count, number) in [(0, 9), (1, 0), (6, 0), (7, 9), (u16::MAX, 9)] {
        assert_eq!(number_with(|record| record.count = count, false), number);
    }
    for (byte0, protected, number) in [(1, false, 0), (1, true, 9), (2, true, 0), (0, true, 0)] {
        assert_eq!(number_with(|record| record.byte0 = byte0, protected), number);
    }
    // A failed transfer has one step, and its fields are not looked at.
    for (taken, number) in [(0, 0), (1, 0), (2, 9)] {
        let change = |record: &mut Record| {
            (record.code, record.taken, record.data) = (0x10, taken, u32::MAX);
        };
        assert_eq!(number_with(change, false), number);
    }
}

#[test]
fn number_nine_for_the_number_of_commands() {
    for (commands, number) in [(32, 0), (33, 9), (u64::from(u32::MAX), 9)] {
        let mut board = bench_board(false);
        let mut table = [Record::default(); 32];
        let run = run_written(&mut board, &mut table, commands, u64::MAX);
        assert_eq!(run.number, number);
        assert_eq!(run.finished, number == 0);
    }
}

#[test]
fn sizes_on_both_sides() {
    let small = Drive::default();
    let largest = Drive::with_equal_heads(255, 7, 15);
    let past = Drive::with_equal_heads(330, 10, 8);
    let huge = Drive::with_equal_heads(65_535, 255, 255);
    for (memory, image, drive, number) in [
        (65_536, 512, small, 0),
        (65_537, 512, small, 1),
        (64, 511, small, 1),
        (64, 513, small, 1),
        (64, 0, small, 1),
        (64, 16_777_216, largest, 0),
        (64, 16_777_728, past, 1),
        (64, 0, huge, 1),
        (64, 16_777_216, huge, 1),
    ] {
        let mut board = Board::with_unit_0(vec![0; memory], drive, vec![0; image]);
        let mut table = [Record::default(); 40];
        assert_eq!(walk(&board, &mut table, 0).number, number);
        assert_eq!(walk(&board, &mut table[..31], 0).number, 1);
        let place_number = if number == 0 { 8 } else { 1 };
        assert_eq!(pick(&mut board, &mut table, 0, 0), place_number);
        assert_eq!(pick(&mut board, &mut table[..31], 0, 0), 1);
        assert_eq!(run_picks(&mut board, &mut table, 0, &[]).number, number);
        assert_eq!(run_written(&mut board, &mut table, 0, 0).number, number);
    }
}

#[test]
fn looks_on_both_sides() {
    let mut board = bench_board(false);
    assert_eq!(look_number(&board, 0, 31), 0);
    assert_eq!(look(&board, 0, 31), [31; 512]);
    assert_eq!(look_number(&board, 0, 32), 10);
    assert!(look(&board, 0, 32).is_empty());
    board.memory = vec![0; 65_537];
    assert_eq!(look_number(&board, 0, 31), 0);
    board.units[0].image.pop();
    assert_eq!(look_number(&board, 0, 31), 1);
    assert_eq!(look_number(&board, 0, 32), 1);
    assert!(look(&board, 0, 31).is_empty());
}

#[test]
fn views_on_both_sides() {
    let mut board = bench_board(false);
    board.memory = (0..31).collect();
    assert_eq!(view(&board, 0).0, 0);
    assert_eq!(view(&board, 1).0, 2);
    assert_eq!(view(&board, 2).0, 3);
    assert_eq!(view(&board, 33).0, 2);
    assert_eq!(view(&board, 0xFFFF_FFFE).0, 3);
    assert_eq!(view(&board, 1).1.in_order(), [0; 18]);
    assert_eq!(fields_at(&board, 2).in_order(), [0; 18]);
    // Byte k holds k: the fields at 0, then at the odd address 1.
    let at_0 = [0, 0, 0, 0, 0, 1, 0, 1, 0, 3, 4, 5, 0x0809, 0x0A0B, 12, 13, 0x10111213, 0x14151617];
    let at_1 = [0, 0, 0, 0, 1, 2, 0, 1, 1, 4, 5, 6, 0x090A, 0x0B0C, 13, 14, 0x11121314, 0x15161718];
    assert_eq!(fields_at(&board, 0).in_order(), at_0);
    assert_eq!(fields_at(&board, 1).in_order(), at_1);
}
