//! Budgets, lists of picks, numbers of commands, and the order in which a
//! pick is refused.

use crate::makers::block::Block;
use crate::makers::edges::nines::calls_on_spoiled;
use crate::makers::edges::{six_steps, READ, WRITE};
use crate::makers::script::Script;
use crate::makers::ALL_32_BITS;
use crate::trial::line::Line;

/// All the cases of this file.
pub fn all(script: &mut Script) {
    budgets(script);
    lists(script);
    numbers_of_commands(script);
    order_of_refusals(script);
}

fn budgets(script: &mut Script) {
    for budget in [0, 1, 2, 3, 5, 6, 7, u64::MAX] {
        six_steps(script);
        script.say_all([Line::Steps, Line::Written(budget), Line::Written(0), Line::Steps]);
        script.say_all([Line::Pick(1), Line::Written(u64::MAX), Line::Written(u64::MAX)]);
    }
    // Before any walk there is nothing to do.
    script.bench_case();
    script.say_all([Line::Written(0), Line::Written(u64::MAX), Line::Steps, Line::Pick(0)]);
    script.picks(&[]);
    script.picks(&[0, 255]);
}

fn lists(script: &mut Script) {
    for list in
        [vec![], vec![255], vec![2, 1, 0, 1, 0, 1], vec![0; 256], vec![0, 0, 0, 1, 3, 2, 1, 2, 1]]
    {
        six_steps(script);
        script.picks(&list);
        script.picks(&[]);
        script.say_all([Line::look_0(8), Line::look_0(24), Line::Fields(0x20), Line::Written(2)]);
    }
}

/// Numbers of commands said by hand over records of zeros.
fn numbers_of_commands(script: &mut Script) {
    for commands in [0, 1, 2, 31, 32, 33, 40, 256, 65_536, ALL_32_BITS] {
        script.bench_case();
        script.say_all([Line::Commands(commands), Line::Lent(40), Line::Steps, Line::Pick(0)]);
        script.say_all([1, 31, 32, 33, 39, 256, ALL_32_BITS].map(Line::Pick));
        script.say_all([1, 31, 32, 33, 39, ALL_32_BITS].map(Line::LentPick));
        script.picks(&[1, 2, 31, 0, 1, 32, 255]);
        script.say_all([Line::Written(3), Line::Written(u64::MAX), Line::Steps]);
    }
}

/// The order 1, 9, 8, 7, 6 of a pick, each with what would give the next.
fn order_of_refusals(script: &mut Script) {
    // 1 before 9 before 8.
    six_steps(script);
    script.spoil(1, 4, 0);
    script.drive(1, 1, 6, false);
    calls_on_spoiled(script);
    // 7 before 6: a finished command that an unfinished earlier one is against.
    for taken in [0, 1] {
        script.bench_case();
        let read = Block::new(READ).at(0, 0, 1).count(1).data(0x400);
        script.block(0x00, read.next(0x20));
        script.block(0x20, read.at(0, 0, 2));
        script.say(Line::Walk(0));
        script.spoil(1, 3, taken);
        script.say_all([Line::Pick(1), Line::LentPick(1), Line::Pick(0), Line::Pick(1)]);
    }
    // Only earlier and only unfinished commands stand in the way.
    script.bench_case();
    let write = Block::new(WRITE).at(0, 0, 5).count(2);
    script.block(0x00, write.data(0x400).next(0x20));
    script.block(0x20, write.data(0x800).next(0x40));
    script.block(0x40, write.data(0xC00));
    script.say(Line::Walk(0));
    script.picks(&[2, 1, 0, 1, 0, 2, 1, 2, 1, 2, 2]);
    script.say_all([Line::look_0(5), Line::look_0(6), Line::Fields(0x40)]);
}
