//! A range of memory: where data lies, or a piece of it. A command without a
//! link list has one range, a command with a list has one for each element.

use crate::board::Board;
use std::ops;

/// An address and a number of bytes from there on. An element's length has 16
/// bits; the one range of a command without a list may be longer.
#[derive(Clone, Copy, Debug, Default, PartialEq, Eq)]
pub struct Range {
    pub address: u32,
    pub length: u32,
}

impl Range {
    /// The addresses of its bytes; none where its length is 0.
    pub fn bytes(&self) -> ops::Range<u64> {
        let first = u64::from(self.address);
        first..first + u64::from(self.length)
    }

    /// Its end is not past the end of memory. This is asked of a range of
    /// length 0 too, whose end is its address.
    pub fn in_memory(&self, board: &Board) -> bool {
        board.in_memory(u64::from(self.address), u64::from(self.length))
    }
}

/// The lengths of all ranges together.
pub fn sum_of_lengths(ranges: &[Range]) -> u64 {
    ranges.iter().map(|range| u64::from(range.length)).sum()
}

/// The addresses of the bytes from the `from`-th on, `number` of them, of
/// ranges laid end to end in their order.
pub fn bytes_end_to_end(ranges: &[Range], from: u64, number: u64) -> Vec<u64> {
    let mut addresses = Vec::new();
    // How many bytes the ranges so far have.
    let mut before = 0;
    for range in ranges {
        let length = u64::from(range.length);
        let first = from.clamp(before, before + length) - before;
        let end = (from + number).clamp(before, before + length) - before;
        addresses.extend((first..end).map(|k| u64::from(range.address) + k));
        before += length;
    }
    addresses
}
