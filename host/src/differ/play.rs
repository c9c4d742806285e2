//! A chain while it is being played: both sides, the random numbers that decide what comes next,
//! and the number of commands that the last walk gave.

use crate::boards::Board;
use crate::differ::call::{Call, Reply};
use crate::differ::counts::Counts;
use crate::differ::sides::Sides;
use second::makers::chain::Chain;
use second::makers::rng::Rng;

/// The error says which call it was and what each side gave.
pub type Played = Result<(), String>;

pub struct Play<'a> {
    pub rng: Rng,
    pub sides: Sides<'a>,
    pub chain: Chain,
    /// What the last walk gave, or what a spoiled caller takes it for.
    pub commands: usize,
    counts: &'a mut Counts,
    calls: u64,
    tell: bool,
}

impl<'a> Play<'a> {
    /// On the empty ground; `tell` prints every call and its reply.
    pub fn new(board: &'a Board, rng: Rng, counts: &'a mut Counts, tell: bool) -> Play<'a> {
        Play {
            rng,
            sides: Sides::new(board, second::board::Board::default()),
            chain: Chain::default(),
            commands: 0,
            counts,
            calls: 0,
            tell,
        }
    }

    /// Calls both sides and compares them.
    pub fn call(&mut self, call: Call) -> Result<Reply, String> {
        self.calls += 1;
        let reply = self
            .sides
            .call(&call)
            .map_err(|what| format!("call {}: {call}\n{what}", self.calls))?;
        if self.tell {
            println!("call {}: {call}\n    {reply}", self.calls);
        }
        self.counts.see(&call, &reply, self.sides.ground(), self.sides.table());
        Ok(reply)
    }

    /// Says what is set between the calls, where each call is told.
    pub fn say(&self, what: impl FnOnce() -> String) {
        if self.tell {
            println!("{}", what());
        }
    }
}
