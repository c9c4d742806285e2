//! Runs over commands with link lists: picks and budgets that stop in the
//! middle of lists and of straddled sectors, and the most steps there can be.

use crate::makers::block::Block;
use crate::makers::edges::lists::{evenly, list_case, list_of};
use crate::makers::edges::{image, memory, READ, WRITE};
use crate::makers::script::Script;
use crate::range::Range;
use crate::trial::line::Line;

/// All the cases of this file.
pub fn all(script: &mut Script) {
    budgets(script);
    picks(script);
    one_long_command(script);
    most_steps(script);
}

/// Three commands of three, two and three steps. The first and the second are
/// not in each other's way; the third writes out what the first has read.
fn eight_steps(script: &mut Script) {
    list_case(script);
    let first = list_of(&[(0x600, 700), (0x902, 0), (0xA00, 300), (0xC00, 536)]);
    let second = list_of(&[(0xE20, 101), (0x8C0, 300), (0x500, 200), (0xB30, 206), (0xE90, 217)]);
    let third = list_of(&[(0xC00, 536), (0x700, 400), (0xA10, 284), (0x600, 316)]);
    for (at, list) in [(0x100, &first), (0x180, &second), (0x201, &third)] {
        script.link_list(at, list);
    }
    script.block(0x00, Block::new(READ).at(0, 1, 0).count(3).list(0x100, 4).next(0x20));
    script.block(0x20, Block::new(WRITE).at(0, 0, 2).count(2).list(0x180, 5).next(0x40));
    script.block(0x40, Block::new(WRITE).at(1, 0, 3).count(3).list(0x201, 4));
    script.say(Line::Walk(0));
}

fn look_at_all(script: &mut Script) {
    script.say_all([0x00, 0x20, 0x40].map(Line::Fields));
    script.say_all([2, 3, 8, 9, 10, 19, 20, 21].map(Line::look_0));
}

fn budgets(script: &mut Script) {
    for budget in 0..=9 {
        eight_steps(script);
        script.say_all([Line::Steps, Line::Written(budget), Line::Steps]);
        look_at_all(script);
        script.say_all([Line::Pick(1), Line::Written(2), Line::Written(u64::MAX)]);
    }
}

fn picks(script: &mut Script) {
    for list in [
        vec![1, 2, 0, 1, 2, 0, 1, 0, 2, 2, 2, 2],
        vec![0, 1, 0, 1, 0, 2, 2, 2],
        vec![1, 1, 1, 2, 0, 0, 2],
        vec![0, 0],
        vec![2, 2, 1],
    ] {
        eight_steps(script);
        for place in &list {
            script.say(Line::Pick(u64::from(*place)));
        }
        look_at_all(script);
        script.say(Line::Written(u64::MAX));
        eight_steps(script);
        script.picks(&list);
        look_at_all(script);
        script.say_all([Line::Written(1), Line::Written(u64::MAX)]);
    }
}

/// Memory and drive of the largest transfers: 4,096 sectors.
fn large_ground(script: &mut Script) {
    script.case();
    script.drive(15, 15, 15, false);
    script.say_all([memory(65_536), image(4_096)]);
    for k in 0..64 {
        let bytes = vec![(k * k * 3 + 1) as u8, (5 * k) as u8];
        script.say(Line::Put { address: 0x3000 + 700 * k, bytes: bytes.clone() });
        script.say(Line::Disk { offset: 17 + 30_011 * k, bytes });
    }
}

/// 32 ranges over nearly all of memory: 32 x 65,520 bytes are 4,095 sectors.
fn longest_list(apart: u32) -> Vec<Range> {
    evenly(32, 0, apart, 65_520)
}

/// One command of 4,095 sectors, whose ranges overlap nearly all.
fn one_long_command(script: &mut Script) {
    for command in [READ, WRITE] {
        large_ground(script);
        script.link_list(0x2000, &longest_list(0));
        script.block(0, Block::new(command).at(0, 0, 1).count(4_095).list(0x2000, 32));
        script.say_all([Line::Walk(0), Line::Steps, Line::Pick(0), Line::Written(200)]);
        script.say_all([
            Line::Written(u64::MAX),
            Line::look_0(0),
            Line::look_0(1),
            Line::look_0(4_095),
        ]);
    }
}

/// 32 such commands: 131,040 steps.
fn most_steps(script: &mut Script) {
    large_ground(script);
    let mut lists = longest_list(0);
    lists[1].address = 16;
    lists[30].address = 6;
    script.link_list(0x2000, &lists);
    lists.reverse();
    script.link_list(0x2101, &lists);
    for k in 0..32 {
        let command = if k % 3 == 1 { WRITE } else { READ };
        let at = if k % 2 == 0 { 0x2000 } else { 0x2101 };
        let block = Block::new(command).at(0, 0, k % 2).count(4_095).list(at, 32);
        script.block(32 * k, if k < 31 { block.next(32 * (k + 1)) } else { block });
    }
    script.say_all([Line::Walk(0), Line::Steps, Line::Written(70_000), Line::Written(1 << 32)]);
    script.say_all([Line::Fields(0), Line::Fields(31 * 32), Line::look_0(0), Line::look_0(4_000)]);
}
