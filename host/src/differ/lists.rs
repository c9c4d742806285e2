//! Link lists for tables made by hand, and lists spoiled on either side of the lines that number 9 has
//! for them.

use crate::differ::play::{Play, Played};
use crate::differ::spoil::some_calls;
use second::link_list::MOST_ELEMENTS;
use second::makers::rng::Rng;
use second::range::Range;
use second::record::Record;

const MOST: u16 = MOST_ELEMENTS as u16;
/// The longest that a range of a list can be.
const LONGEST: u32 = 0xFFFF;

/// Gives a record of few sectors a list that its bytes fit in. Past the last range stands anything,
/// and so it does at the data address.
pub fn give_list(rng: &mut Rng, memory: u64, record: &mut Record) {
    let bytes = record.data_bytes();
    let ranges =
        if rng.percent(30) { comb(rng, memory, bytes) } else { anywhere(rng, memory, bytes) };
    record.ranges = ranges.len() as u16;
    record.list[..ranges.len()].copy_from_slice(&ranges);
    for range in &mut record.list[ranges.len()..] {
        if rng.once_in(4) {
            *range = Range { address: rng.next() as u32, length: rng.below(65_536) as u32 };
        }
    }
    record.data = rng.next() as u32;
}

/// Ranges anywhere in memory, over each other too. Their addresses may be odd, which only the walk
/// asks.
fn anywhere(rng: &mut Rng, memory: u64, bytes: u64) -> Vec<Range> {
    let parts = rng.one_of(&[1, 2, 2, 3, 3, 4, 8, 31, 32]);
    let lengths = cut(rng, bytes, parts);
    let range = |length| {
        let address = rng.between(0, memory.saturating_sub(length)) as u32;
        Range { address, length: length as u32 }
    };
    lengths.into_iter().map(range).collect()
}

/// Ranges of one length, with as much room between them: two such lists at the same place either fill
/// each other's gaps or lie over each other.
fn comb(rng: &mut Rng, memory: u64, bytes: u64) -> Vec<Range> {
    let parts = rng.one_of(&[2, 4, 32]);
    let length = bytes / parts;
    let first = memory.saturating_sub(2 * bytes) / 2 + rng.one_of(&[0, length]);
    let address = |k: u64| (first + 2 * length * k).min(memory.saturating_sub(length));
    let range = |k| Range { address: address(k) as u32, length: length as u32 };
    (0..parts).map(range).collect()
}

/// So many parts of a number of bytes, anywhere cut; some may be empty.
fn cut(rng: &mut Rng, bytes: u64, parts: usize) -> Vec<u64> {
    let mut cuts: Vec<u64> = (1..parts).map(|_| rng.between(0, bytes)).collect();
    cuts.extend([0, bytes]);
    cuts.sort();
    cuts.windows(2).map(|pair| pair[1] - pair[0]).collect()
}

/// A place in use whose record has a list, if there is one.
pub fn listed_place(play: &mut Play) -> Option<usize> {
    let in_use = &play.sides.table()[..play.commands.min(32)];
    let listed: Vec<usize> = (0..in_use.len()).filter(|place| in_use[*place].has_list()).collect();
    if listed.is_empty() {
        return None;
    }
    Some(play.rng.one_of(&listed))
}

/// Spoils the list of the record at a place, calls, and mostly puts it back.
pub fn spoil_list(play: &mut Play, place: usize) -> Played {
    let right = play.sides.table()[place];
    let memory = play.sides.ground().memory_bytes();
    let mut wrong = right;
    match play.rng.below(10) {
        0..=2 => wrong.ranges = wrong_number(&mut play.rng, right.ranges),
        3 if right.ranges < MOST => one_more(&mut play.rng, memory, &mut wrong),
        _ => wrong_range(&mut play.rng, memory, &mut wrong),
    }
    set(play, place, wrong);
    some_calls(play)?;
    if play.rng.percent(75) {
        let now = play.sides.table()[place];
        set(play, place, Record { ranges: right.ranges, list: right.list, ..now });
    }
    Ok(())
}

fn set(play: &mut Play, place: usize, record: Record) {
    play.say(|| format!("record {place} becomes {record:?}"));
    play.sides.set_record(place, record);
}

/// A number of ranges: none, one beside the right one, about the most that there is room for, and
/// such as have the right one's low bits.
fn wrong_number(rng: &mut Rng, right: u16) -> u16 {
    let alike = [right.wrapping_add(256), right.wrapping_add(512)];
    let beside = [0, right.saturating_sub(1), right.saturating_add(1)];
    let most = [MOST, MOST + 1, u16::MAX];
    let choices = [beside, most].concat();
    rng.one_of(&[choices, alike.to_vec()].concat())
}

/// One range more, of no byte: it adds nothing, and is asked like the others whether it is in memory.
fn one_more(rng: &mut Rng, memory: u64, record: &mut Record) {
    let end = memory as u32;
    let address = rng.one_of(&[0, end.saturating_sub(1), end, end, end + 1, u32::MAX]);
    record.list[record.ranges as usize] = Range { address, length: 0 };
    record.ranges += 1;
}

/// Another length or another address of one range; where its length changes, a second one now and then
/// makes up for it.
fn wrong_range(rng: &mut Rng, memory: u64, record: &mut Record) {
    let ranges = record.ranges.min(MOST) as u64;
    let at = rng.below(ranges) as usize;
    let Range { address, length } = record.list[at];
    record.list[at] = match rng.below(8) {
        0 => Range { address, length: length.saturating_sub(1) },
        1 => Range { address, length: (length + 1).min(LONGEST) },
        2 => Range { address, length: (length + 512).min(LONGEST) },
        3 => Range { address, length: LONGEST },
        4 => Range { address: address ^ 1, length },
        _ => Range { address: about_the_end(rng, memory, length), length },
    };
    let other = rng.below(ranges) as usize;
    if other != at && rng.percent(40) {
        let both = length + record.list[other].length;
        record.list[other].length = both.saturating_sub(record.list[at].length).min(LONGEST);
    }
}

/// An address from which so many bytes end at the end of memory, or one byte to either side; now and
/// then where 32 bits would wrap.
fn about_the_end(rng: &mut Rng, memory: u64, length: u32) -> u32 {
    let last = memory.saturating_sub(length.into()) as u32;
    if rng.once_in(5) {
        return rng.one_of(&[u32::MAX, u32::MAX - 1, 0_u32.wrapping_sub(length)]);
    }
    rng.one_of(&[last.saturating_sub(1), last, last, last + 1, last + 1])
}
