//! Decks whose commands have link lists: in a record of the deck that is not
//! part of the chain, or in zero memory after it.

use crate::bench::DECK_RECORD;
use crate::makers::block::Block;
use crate::makers::decks::{deck_of, list_block};
use crate::makers::edges::lists::list_of;
use crate::makers::edges::{READ, WRITE};
use crate::makers::script::Script;
use crate::range::Range;
use crate::trial::line::Line;

/// All the cases of this file.
pub fn all(script: &mut Script) {
    for list in [
        list_of(&[(0x400, 512)]),
        list_of(&[(0x400, 200), (0x800, 312)]),
        list_of(&[(0x400, 100), (0x800, 0), (0x600, 412)]),
        list_of(&[(0x400, 100), (0x800, 0), (0x600, 411)]),
        list_of(&[(0x400, 100), (0x801, 0), (0x600, 412)]),
        list_of(&[(0x400, 100), (0x1000, 0), (0xE64, 412)]),
        list_of(&[(0x400, 100), (0x1002, 0), (0xE64, 412)]),
        list_of(&[(0x400, 100), (0x1000, 0), (0xE66, 412)]),
    ] {
        read_then_write(script, &list);
    }
    others(script);
}

/// A read by this list, then a write by the same; the list is in record 2.
fn read_then_write(script: &mut Script, list: &[Range]) {
    let at = 2 * DECK_RECORD as u64;
    let read = Block::new(READ).at(0, 0, 5).count(1).list(at, list.len() as u64);
    let write = read.command(WRITE).at(1, 1, 0);
    for protected in [false, true] {
        let blocks = [read.next(32), write, list_block(list)];
        say(script, deck_of(&blocks, protected));
    }
}

fn say(script: &mut Script, deck: Vec<u8>) {
    script.case();
    script.say(Line::Deck(deck));
}

/// Lists at the end of memory and past it, zero lists, a list over two records
/// and one at an odd address; and SGM where there is no list.
fn others(script: &mut Script) {
    let read = Block::new(READ).at(0, 0, 5).count(1);
    for (at, elements) in [(0xFF8, 1), (0xFF9, 1), (0xF00, 32), (0xF01, 32), (0x800, 2)] {
        say(script, deck_of(&[read.list(at, elements)], false));
    }
    // Bytes 30 and 31 are 0, so the fourth element of a record begins at 0.
    let list = list_of(&[(0x400, 100), (0x600, 100), (0x800, 100), (0, 12), (0xA00, 200)]);
    let blocks = [read.list(0x20, 5), list_block(&list[..4]), list_block(&list[4..])];
    say(script, deck_of(&blocks, false));
    let mut shifted = list_block(&list[..1]);
    shifted.bytes.rotate_right(1);
    say(script, deck_of(&[read.list(0x21, 1), shifted], false));
    for block in [read.command(0), read.command(5), read.subfunction(1), read.next(0x21)] {
        say(script, deck_of(&[block.list(0x20, 1), list_block(&list[..1])], false));
    }
}
