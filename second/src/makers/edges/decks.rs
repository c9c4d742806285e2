//! Decks that the bench takes, and each way in which a deck is none: its
//! length, its bytes 30 and 31, and where its chain leads.

use crate::makers::block::Block;
use crate::makers::decks::deck_of;
use crate::makers::lines::example_records;
use crate::makers::script::Script;
use crate::makers::ALL_32_BITS;
use crate::trial::line::Line;

/// All the cases of this file.
pub fn all(script: &mut Script) {
    let sound = deck_of(&example_records(), false);
    let mut list = vec![sound.clone(), deck_of(&example_records(), true), Vec::new(), vec![0; 32]];
    list.extend([1, 31, 33, 63].map(|length| vec![0; length]));
    list.extend([1_024, 1_025, 1_055, 1_056, 1_088].map(|length| vec![0; length]));
    for (at, byte) in [(30, 1), (31, 2), (31, 255), (62, 1), (63, 1), (94, 9), (95, 1)] {
        let mut deck = sound.clone();
        deck[at] = byte;
        list.push(deck);
    }
    let quiet = Block::new(0);
    for next in [0, 2, 30, 32, 0xFE1, 0xFE2, 0xFE4, 0x1000, ALL_32_BITS - 1] {
        list.push(deck_of(&[quiet.next(next)], false));
    }
    for last_next in [None, Some(0x400), Some(0x401), Some(0)] {
        let mut blocks: Vec<Block> = (1..=32).map(|k| quiet.next(32 * k)).collect();
        blocks[31] = last_next.map_or(quiet, |next| quiet.next(next));
        list.push(deck_of(&blocks, false));
    }
    for deck in list {
        script.case();
        script.say(Line::Deck(deck));
    }
}
