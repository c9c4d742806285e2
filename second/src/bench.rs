//! The bench program: a deck in, its lines out. It has a board of its own, with
//! unit 0 alone, made afresh for every deck.

use crate::board::{Board, SECTOR_BYTES};
use crate::drive::Drive;
use crate::record::{Record, MOST_COMMANDS};
use crate::run::run_written;
use crate::walk::walk;

/// The bytes of one record of a deck.
pub const DECK_RECORD: usize = 32;
/// The bytes of the bench's memory.
pub const BENCH_MEMORY: usize = 4_096;

/// What the bench makes of a deck.
#[derive(Clone, Debug, PartialEq, Eq)]
pub enum BenchReply {
    /// The deck breaks the rules of decks.
    Deck,
    /// The walk refuses, with this number.
    Chain(u8),
    /// The record of each command, and the steps.
    Lines { records: Vec<Record>, steps: u64 },
}

impl BenchReply {
    /// The lines that the bench prints.
    pub fn lines(&self) -> Vec<String> {
        match self {
            BenchReply::Deck => vec!["deck".to_string()],
            BenchReply::Chain(number) => vec![format!("chain {number}")],
            BenchReply::Lines { records, steps } => {
                let mut lines = Vec::new();
                for (place, record) in records.iter().enumerate() {
                    lines.push(format!("{place} {:02X}", record.code));
                }
                lines.push(format!("steps {steps}"));
                lines
            }
        }
    }
}

/// The drive of the bench: maxima 1, 1 and 7, the last head like the other.
pub fn bench_drive(protected: bool) -> Drive {
    Drive { protected, ..Drive::with_equal_heads(1, 1, 7) }
}

/// The board of the bench before any deck: zero memory, sector n full of n.
pub fn bench_board(protected: bool) -> Board {
    let drive = bench_drive(protected);
    let mut image = Vec::new();
    for sector in 0..drive.number_of_sectors() {
        image.extend(vec![sector as u8; SECTOR_BYTES as usize]);
    }
    Board::with_unit_0(vec![0; BENCH_MEMORY], drive, image)
}

/// Runs a deck.
pub fn bench(deck: &[u8]) -> BenchReply {
    if !deck_right(deck) {
        return BenchReply::Deck;
    }
    let mut board = bench_board(deck[31] == 1);
    for (k, record) in deck.chunks(DECK_RECORD).enumerate() {
        let at = DECK_RECORD * k;
        board.memory[at..at + 30].copy_from_slice(&record[..30]);
    }
    let mut table = [Record::default(); MOST_COMMANDS as usize];
    let walked = walk(&board, &mut table, 0);
    if walked.number != 0 {
        return BenchReply::Chain(walked.number);
    }
    let run = run_written(&mut board, &mut table, walked.commands, u64::MAX);
    let in_use = &table[..walked.commands as usize];
    BenchReply::Lines { records: in_use.to_vec(), steps: run.steps }
}

/// Whole records, 1 to 32 of them, with bytes 30 and 31 as they must be.
fn deck_right(deck: &[u8]) -> bool {
    let records = deck.len() / DECK_RECORD;
    if deck.len() % DECK_RECORD != 0 || records < 1 || records > MOST_COMMANDS as usize {
        return false;
    }
    for (k, record) in deck.chunks(DECK_RECORD).enumerate() {
        let most = if k == 0 { 1 } else { 0 };
        if record[30] != 0 || record[31] > most {
            return false;
        }
    }
    true
}
