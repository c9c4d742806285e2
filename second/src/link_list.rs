//! The link list of a command with SGM set, as in section 8.10 of the manual:
//! elements of eight bytes, one after the other, from the data address on.

use crate::board::Board;
use crate::iopb::high_first;
use crate::range::Range;

/// The most elements that a list may have.
pub const MOST_ELEMENTS: u64 = 32;
/// The bytes of one element.
pub const ELEMENT_BYTES: u64 = 8;

/// How many elements the IOPB at this address says: byte 6, bits 7-3, where 0
/// means 32. The three bits below are ignored.
pub fn elements_said(board: &Board, iopb: u64) -> u64 {
    let field = u64::from(board.memory[iopb as usize + 6] >> 3);
    if field == 0 {
        MOST_ELEMENTS
    } else {
        field
    }
}

/// The ranges of a list, if all its bytes are in memory. Its address may be
/// odd.
pub fn read_list(board: &Board, address: u64, elements: u64) -> Option<Vec<Range>> {
    let bytes = ELEMENT_BYTES * elements;
    if !board.in_memory(address, bytes) {
        return None;
    }
    let list = &board.memory[address as usize..(address + bytes) as usize];
    Some(list.chunks(ELEMENT_BYTES as usize).map(range_of).collect())
}

/// Bytes 0-1 are the length and bytes 4-7 the address; 2 and 3 are ignored.
fn range_of(element: &[u8]) -> Range {
    Range { address: high_first(&element[4..8]) as u32, length: high_first(&element[0..2]) as u32 }
}
