//! Link lists on the ordinary board: how one is read at the walk, what the code and number 9 ask of
//! its ranges, whether its data meets another's, and how steps move it.

use crate::declared::{Link, Record};
use std::ops::Range;

const ELEMENT: usize = 8;
pub const MOST_LINKS: usize = 32;

/// The ranges that a record has, of those that there is room for.
pub fn used(r: &Record) -> &[Link] {
    &r.list[..(r.ranges as usize).min(MOST_LINKS)]
}

fn range_of(link: &Link) -> Range<u32> {
    // an end past all addresses is past the end of any memory too
    link.address..link.address.saturating_add(u32::from(link.length))
}

/// How many elements an IOPB says, by its byte 6: 0 means 32.
pub fn elements(byte6: u8) -> usize {
    match byte6 >> 3 {
        0 => MOST_LINKS,
        some => usize::from(some),
    }
}

/// Reads so many elements of the list at an address; false, and nothing is read, if they are not all
/// in memory.
pub fn read(memory: &[u8], at: u32, elements: usize, list: &mut [Link]) -> bool {
    let at = at as usize;
    let Some(bytes) = memory.get(at..at + ELEMENT * elements) else {
        return false;
    };
    for (link, b) in list.iter_mut().zip(bytes.chunks_exact(ELEMENT)) {
        link.length = u16::from_be_bytes([b[0], b[1]]);
        link.address = u32::from_be_bytes([b[4], b[5], b[6], b[7]]);
    }
    true
}

/// What is asked of all ranges together, found in one pass: from where to where they go, how many
/// bytes they have, and whether one of them begins at an odd address.
pub struct Weighed {
    pub hull: Range<u32>,
    pub bytes: u32,
    pub odd: bool,
}

/// The loop has no branch, so that the compiler looks at several ranges at a time.
pub fn weigh(links: &[Link]) -> Weighed {
    let mut hull = Range { start: u32::MAX, end: 0 };
    let (mut bytes, mut bits) = (0, 0);
    for link in links {
        let range = range_of(link);
        hull.start = hull.start.min(range.start);
        hull.end = hull.end.max(range.end);
        bytes += u32::from(link.length);
        bits |= link.address;
    }
    Weighed { hull, bytes, odd: bits & 1 == 1 }
}

/// Whether two ranges have something in common; an empty one has nothing.
pub fn meet(one: &Range<u32>, other: &Range<u32>) -> bool {
    one.start.max(other.start) < one.end.min(other.end)
}

/// Whether bytes of memory have one in common with these ranges; again no branch in the loop.
pub fn meets(links: &[Link], bytes: &Range<u32>) -> bool {
    links.iter().fold(false, |met, link| met | meet(&range_of(link), bytes))
}

/// Whether the ranges of two lists have a byte in common. Of the first only those are tested that lie
/// where the second one's are.
pub fn lists_meet(one: &[Link], other: &[Link], other_hull: &Range<u32>) -> bool {
    let near = one.iter().map(range_of).filter(|range| meet(range, other_hull));
    near.into_iter().any(|range| meets(other, &range))
}

/// Moves the bytes `from..to` of the data that lies in these ranges, end to end: to memory where
/// `reading`, or from there to `disk`, where the data's own place on the disk begins. In list order,
/// which is the order of the steps too.
pub fn move_pieces(
    memory: &mut [u8],
    disk: &mut [u8],
    links: &[Link],
    reading: bool,
    from: usize,
    to: usize,
) {
    let mut begins = 0;
    for link in links {
        let ends = begins + usize::from(link.length);
        let (first, end) = (from.max(begins), to.min(ends));
        if first < end {
            let at = link.address as usize + first - begins;
            let piece = &mut memory[at..at + end - first];
            if reading {
                piece.copy_from_slice(&disk[first..end]);
            } else {
                disk[first..end].copy_from_slice(piece);
            }
        }
        if ends >= to {
            return;
        }
        begins = ends;
    }
}
