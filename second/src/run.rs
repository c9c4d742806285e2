//! The two kinds of run: by a list of picks, and as written.
//! Both test 1 and 9 first, and change nothing then.

use crate::board::Board;
use crate::conflict::{touched, Touched};
use crate::pick::{pick_in_sound, refuses_all, take_step};
use crate::record::Record;

/// What a run by picks answers. `numbers` has the number of each pick, for
/// those who count.
#[derive(Clone, Debug, PartialEq, Eq)]
pub struct PicksReply {
    pub number: u8,
    pub steps: u64,
    pub refused: u64,
    pub finished: bool,
    pub numbers: Vec<u8>,
}

/// What a run as written answers.
#[derive(Clone, Debug, PartialEq, Eq)]
pub struct WrittenReply {
    pub number: u8,
    pub steps: u64,
    pub finished: bool,
}

/// All commands in use are finished; so with no commands at all.
pub fn all_finished(in_use: &[Record]) -> bool {
    in_use.iter().all(Record::finished)
}

/// Takes the picks in turn; a refused pick is passed over.
pub fn run_picks(
    board: &mut Board,
    table: &mut [Record],
    commands: u64,
    picks: &[u8],
) -> PicksReply {
    let number = refuses_all(board, table, commands);
    let mut reply =
        PicksReply { number, steps: 0, refused: 0, finished: false, numbers: Vec::new() };
    if number != 0 {
        return reply;
    }
    let in_use = &mut table[..commands as usize];
    // What a command touches does not change with its steps: made once.
    let sets: Vec<Touched> = in_use.iter().map(touched).collect();
    for place in picks {
        let number = pick_in_sound(board, in_use, &sets, u64::from(*place));
        if number == 0 {
            reply.steps += 1;
        } else {
            reply.refused += 1;
        }
        reply.numbers.push(number);
    }
    reply.finished = all_finished(in_use);
    reply
}

/// Takes steps of the earliest unfinished command, as many as the budget lets.
pub fn run_written(
    board: &mut Board,
    table: &mut [Record],
    commands: u64,
    budget: u64,
) -> WrittenReply {
    let number = refuses_all(board, table, commands);
    if number != 0 {
        return WrittenReply { number, steps: 0, finished: false };
    }
    let in_use = &mut table[..commands as usize];
    let mut steps = 0;
    while steps < budget {
        let Some(record) = in_use.iter_mut().find(|record| !record.finished()) else {
            break;
        };
        take_step(board, record);
        steps += 1;
    }
    WrittenReply { number: 0, steps, finished: all_finished(in_use) }
}
