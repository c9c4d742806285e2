//! Plays random chains on a board against the second program, for tests.

use host::boards::Board;
use host::differ::counts::Counts;
use host::differ::make::play_chain;

/// Chains for a board with a fault.
const CHAINS_FOR_A_FAULT: u64 = 3_000;

/// Plays chains on a board; the error is the first difference.
pub fn played(board: &Board, seed: u64, chains: u64) -> Result<Counts, String> {
    let mut counts = Counts::default();
    for n in 0..chains {
        play_chain(board, seed, n, &mut counts, false)
            .map_err(|what| format!("seed {seed}, chain {n}, {what}"))?;
    }
    Ok(counts)
}

pub fn must_be_found(what: &str, faulty: Board) {
    let found = played(&faulty, 9, CHAINS_FOR_A_FAULT).is_err();
    assert!(found, "a board that {what} was not found out");
}
