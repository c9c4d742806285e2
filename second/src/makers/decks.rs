//! Random decks for the bench: many sound, and each common mistake too.
//! The same decks are written as files and as cases.

use crate::bench::{bench_drive, BENCH_MEMORY, DECK_RECORD};
use crate::board::SECTOR_BYTES;
use crate::iopb::IOPB_BYTES;
use crate::makers::block::Block;
use crate::makers::chain::commands;
use crate::makers::random_lists::cut;
use crate::makers::rng::Rng;
use crate::makers::script::{element_bytes, Script};
use crate::range::Range;
use crate::trial::line::Line;

/// The n-th deck of a seed.
pub fn random_deck(seed: u64, n: u64) -> Vec<u8> {
    let mut rng = Rng::for_case(seed, n);
    let records = match rng.below(10) {
        0..=5 => rng.between(1, 6),
        6 | 7 => rng.between(1, 16),
        8 => rng.between(1, 32),
        _ => 32,
    };
    let protected = rng.percent(20);
    let mut blocks = sound_records(&mut rng, records, protected);
    let ends = rng.percent(35) || (records == 32 && rng.percent(30));
    if ends {
        let at = blocks.len() - 1;
        blocks[at] = blocks[at].next(other_end(&mut rng, records));
    }
    if rng.percent(8) {
        let at = rng.below(records) as usize;
        blocks[at] = blocks[at].next(other_end(&mut rng, records));
    }
    if records < 32 && rng.percent(45) {
        give_list(&mut rng, &mut blocks);
    }
    let mut deck = deck_of(&blocks, protected);
    if rng.percent(22) {
        mistake(&mut rng, &mut deck);
    }
    deck
}

/// A deck of these IOPBs.
pub fn deck_of(blocks: &[Block], protected: bool) -> Vec<u8> {
    let mut deck = Vec::new();
    for block in blocks {
        deck.extend(block.bytes);
        deck.extend([0, 0]);
    }
    if let Some(mark) = deck.get_mut(31) {
        *mark = u8::from(protected);
    }
    deck
}

/// A record of a deck that holds these elements of a link list, which are at
/// most four; of the fourth, the two low bytes of the address must be 0.
pub fn list_block(list: &[Range]) -> Block {
    let bytes: Vec<u8> = list.iter().flat_map(element_bytes).collect();
    let room = bytes.len().min(IOPB_BYTES as usize);
    let mut block = Block::of(&[]);
    block.bytes[..room].copy_from_slice(&bytes[..room]);
    block
}

/// Gives some command a list of at most three elements, in one more record;
/// mostly a right one, if the command moves data.
fn give_list(rng: &mut Rng, blocks: &mut Vec<Block>) {
    let at = rng.below(blocks.len() as u64) as usize;
    let count = if rng.once_in(4) { rng.between(1, 3) } else { 1 };
    let parts = rng.between(1, 3);
    let mut list = Vec::new();
    for length in cut(rng, SECTOR_BYTES * count, parts) {
        let last = BENCH_MEMORY as u64 - length;
        let address = if rng.once_in(6) { last } else { rng.between(0, last) } / 2 * 2;
        list.push(Range { address: address as u32, length: length as u32 });
    }
    let wrong = rng.below(parts) as usize;
    match rng.below(12) {
        0 => list[wrong].address |= 1,
        1 => list[wrong].address = 0x1002,
        2 => list[wrong].length ^= 1,
        _ => {}
    }
    let address = (DECK_RECORD * blocks.len()) as u64 + rng.one_of(&[0, 0, 0, 0, 0, 8, 0xFC0]);
    blocks[at] = blocks[at].count(count).list(address, parts);
    blocks.push(list_block(&list));
}

fn sound_records(rng: &mut Rng, records: u64, protected: bool) -> Vec<Block> {
    let addresses: Vec<u64> = (0..records).map(|k| k * DECK_RECORD as u64).collect();
    let (mut blocks, _) =
        commands(rng, BENCH_MEMORY as u64, &bench_drive(protected), &addresses, 0);
    for k in 1..blocks.len() {
        blocks[k - 1] = blocks[k - 1].next(addresses[k]);
    }
    blocks
}

/// A next address that is not that of the next record.
fn other_end(rng: &mut Rng, records: u64) -> u64 {
    let end = records * DECK_RECORD as u64;
    match rng.below(9) {
        // A zero IOPB after the deck is a No Operation; 33 commands are one
        // too many.
        0 | 1 => end,
        2 => rng.between(end / 2, 2_033) * 2,
        3 => rng.below(records) * DECK_RECORD as u64,
        4 => rng.below(records) * DECK_RECORD as u64 + 2 * rng.between(1, 15),
        5 => rng.one_of(&[0xFE2, 0xFE4, 0x1000, 0x1_0000, 0xFFFF_FFFE]),
        6 => rng.below(2_048) * 2 + 1,
        7 => 0xFE2,
        _ => 0xFE4,
    }
}

/// Spoils a deck in one of the ways that make it none.
fn mistake(rng: &mut Rng, deck: &mut Vec<u8>) {
    let records = (deck.len() / DECK_RECORD) as u64;
    let other = rng.below(records) as usize * DECK_RECORD;
    let value = if rng.percent(50) { 1 } else { rng.between(1, 255) as u8 };
    match rng.below(10) {
        0 => deck.clear(),
        1 => deck.truncate(deck.len() - rng.between(1, 31) as usize),
        2 => deck.extend(vec![0; rng.between(1, 31) as usize]),
        3 => deck.resize(33 * DECK_RECORD, 0),
        4 => deck.resize(34 * DECK_RECORD, 0),
        5 => deck[30] = value,
        6 => deck[31] = value.max(2),
        7 => deck[other + 30] = value,
        8 | 9 if other > 0 => deck[other + 31] = value,
        _ => deck.truncate(rng.between(1, 31) as usize),
    }
}

/// The text of the n-th case with a deck.
pub fn deck_case(seed: u64, n: u64) -> String {
    let mut script = Script::default();
    script.say(Line::Case(n));
    script.say(Line::Deck(random_deck(seed, n)));
    script.text()
}
