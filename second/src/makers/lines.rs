//! Document 01's "On both sides of each line", each line a case of its own,
//! starred and unstarred, on the drive and memory of the bench.

use crate::makers::block::Block;
use crate::makers::decks::deck_of;
use crate::makers::edges::{all_edges, READ, WRITE};
use crate::makers::script::Script;
use crate::trial::line::Line;

/// Every hand-made case: the document's lines, then the further edges.
pub fn all_lines() -> Script {
    let mut script = Script::default();
    codes(&mut script);
    protection(&mut script);
    walks(&mut script);
    lengths(&mut script);
    example_deck(&mut script);
    two_reads(&mut script);
    all_edges(&mut script);
    script
}

/// Walks one command at 0, runs it, and shows its status and its sector.
pub fn walk_and_run(script: &mut Script, block: Block, sector: u64) {
    script.block(0, block);
    script.say_all([
        Line::Walk(0),
        Line::Steps,
        Line::Fields(0),
        Line::Written(u64::MAX),
        Line::Fields(0),
        Line::look_0(sector),
    ]);
}

/// One command on the bench's ground, as a read and as a write.
fn both_ways(script: &mut Script, block: Block, sector: u64) {
    for command in [READ, WRITE] {
        script.bench_case();
        walk_and_run(script, block.command(command), sector);
    }
}

fn codes(script: &mut Script) {
    let last = Block::new(READ).at(1, 1, 7).count(1).data(0x400);
    both_ways(script, last, 31);
    both_ways(script, last.count(2), 31);
    both_ways(script, last.at(2, 2, 7), 31);
    both_ways(script, last.at(1, 2, 7), 31);
    both_ways(script, last.at(1, 1, 8), 31);
    both_ways(script, last.at(9, 1, 7).count(0), 31);
    both_ways(script, last.data(0xE00), 31);
    both_ways(script, last.data(0xE01), 31);
    script.bench_case();
    walk_and_run(script, last.command(5).next(0x21), 31);
    script.bench_case();
    walk_and_run(script, last.command(5).next_address(0x21), 31);
}

fn protection(script: &mut Script) {
    for command in [WRITE, READ] {
        script.case();
        script.bench_ground(true);
        walk_and_run(script, Block::new(command).at(0, 0, 3).count(1).data(0x400), 3);
    }
}

fn walks(script: &mut Script) {
    script.bench_case();
    script.block(0xFE2, Block::new(0));
    script.say_all([Line::Walk(0xFE2), Line::Written(9), Line::Fields(0xFE2)]);

    script.bench_case();
    script.block(0xFE2, Block::new(0));
    script.say(Line::Walk(0xFE4));

    script.bench_case();
    script.block(0x40, Block::new(0).next(0x40));
    script.say(Line::Walk(0x40));

    for (length, start) in [(30, 0), (0, 0), (0, 1)] {
        script.case();
        script.bench_ground(false);
        script.say(Line::Memory { length, a: 0, b: 0 });
        script.say_all([Line::Walk(start), Line::Written(9), Line::Fields(0)]);
    }
}

/// Chains of 32 commands and of 33, 32 bytes apart.
fn lengths(script: &mut Script) {
    for commands in [32, 33] {
        script.bench_case();
        chain_of(script, commands);
        script.say_all([Line::Walk(0), Line::Steps, Line::Written(u64::MAX)]);
    }
}

/// Puts a chain of No Operations from 0 on, 32 bytes apart.
pub fn chain_of(script: &mut Script, commands: u64) {
    for k in 0..commands {
        let block = Block::new(0);
        let block = if k + 1 < commands { block.next(32 * (k + 1)) } else { block };
        script.block(32 * k, block);
    }
}

/// The three records of the document's deck, byte for byte.
pub fn example_records() -> [Block; 3] {
    [
        Block::of(&[(0, 0x22), (9, 1), (0xC, 1), (0xD, 2), (0x12, 4), (0x17, 0x20)]),
        Block::of(&[(0, 0x21), (9, 1), (0xB, 1), (0x12, 4), (0x17, 0x40)]),
        Block::of(&[(0, 0x02)]),
    ]
}

fn example_case(script: &mut Script) {
    script.bench_case();
    for (k, block) in example_records().into_iter().enumerate() {
        script.block(32 * k as u64, block);
    }
    script.say(Line::Walk(0));
}

fn example_deck(script: &mut Script) {
    for first in [1, 2, 3] {
        example_case(script);
        script.say(Line::Pick(first));
        script.picks(&[1, 0, 1, 1, 2, 3]);
    }
    example_case(script);
    script.say_all([
        Line::Pick(0),
        Line::Pick(0),
        Line::look_0(10),
        Line::Pick(1),
        Line::look_0(16),
    ]);
    script.case();
    script.say(Line::Deck(deck_of(&example_records(), false)));
}

/// Two reads of one sector, into separate memory and into the same.
fn two_reads(script: &mut Script) {
    for second_data in [0x600, 0x400] {
        for first_pick in [1, 0] {
            script.bench_case();
            let read = Block::new(READ).at(0, 1, 1).count(1);
            script.block(0, read.data(0x400).next(0x20));
            script.block(0x20, read.data(second_data));
            script.say_all([Line::Walk(0), Line::Pick(first_pick), Line::Pick(1 - first_pick)]);
            script.say(Line::Written(9));
        }
    }
}
