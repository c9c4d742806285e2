//! Where the data and the sectors of random commands are laid: near those of
//! other commands, one byte or one sector to either side, since that is where
//! conflicts begin and end; or well apart from them.

use crate::board::SECTOR_BYTES;
use crate::drive::Drive;
use crate::iopb::IOPB_BYTES;
use crate::makers::rng::Rng;
use crate::range::Range;

/// What one transfer asks, before anything is spoiled.
#[derive(Clone, Debug)]
pub struct Transfer {
    pub sector: u64,
    pub count: u64,
    /// Where its data lies: one range, or those of its list.
    pub ranges: Vec<Range>,
    /// Where its list is, if it has one.
    pub list: Option<u64>,
}

/// What the transfers of a chain are laid against. `near` is how many in a
/// hundred are laid beside or over another command's things, and `lists` how
/// many have a link list.
pub struct Lay<'a> {
    pub memory: u64,
    pub sectors: u64,
    pub drive: &'a Drive,
    pub addresses: &'a [u64],
    pub near: u64,
    pub lists: u64,
}

pub fn first_sector(rng: &mut Rng, lay: &Lay, count: u64, earlier: &[Transfer]) -> u64 {
    let last = lay.sectors - count.min(lay.sectors);
    if earlier.is_empty() || !rng.percent(lay.near) {
        return match rng.below(6) {
            0 => last,
            1 if lay.drive.last_head_shorter() => over_an_end(rng, lay.drive, count).min(last),
            _ => rng.between(0, last),
        };
    }
    let other = &earlier[rng.below(earlier.len() as u64) as usize];
    let end = other.sector + other.count;
    let before = other.sector.saturating_sub(count);
    let near = [other.sector, other.sector, end - 1, end, before, before + 1];
    rng.one_of(&near).min(last)
}

/// A first sector from which so many run up to the end of some head or, if
/// they are more than one, mostly past it: onto the next head or cylinder.
fn over_an_end(rng: &mut Rng, drive: &Drive, count: u64) -> u64 {
    let cylinder = rng.below(drive.cylinders());
    let head = if rng.percent(60) { drive.heads() - 1 } else { rng.below(drive.heads()) };
    let end = drive.sector_number(cylinder, head, drive.sectors_of(head));
    end.saturating_sub(rng.between(1, count))
}

/// An address for so many bytes, all in memory if there is room.
pub fn data_address(rng: &mut Rng, lay: &Lay, bytes: u64, earlier: &[Transfer]) -> u64 {
    let last = lay.memory.saturating_sub(bytes);
    let address = if !rng.percent(lay.near) {
        if rng.once_in(8) {
            last
        } else {
            rng.between(0, last)
        }
    } else if earlier.is_empty() || rng.percent(45) {
        near_status(rng, bytes, lay.addresses)
    } else {
        near_data(rng, bytes, earlier)
    };
    address.min(last)
}

/// Just beside, or over, the four status bytes of some IOPB of the chain.
fn near_status(rng: &mut Rng, bytes: u64, addresses: &[u64]) -> u64 {
    let status = rng.one_of(addresses);
    let before = status.saturating_sub(bytes);
    match rng.below(8) {
        0 => status + 4,
        1 => status + 3,
        2 => status,
        3 => before,
        4 => before + 1,
        5 => before + 4,
        _ => status.saturating_sub(rng.below(bytes.max(1))),
    }
}

/// Just beside, or over, a range of an earlier command's data.
fn near_data(rng: &mut Rng, bytes: u64, earlier: &[Transfer]) -> u64 {
    let other = &earlier[rng.below(earlier.len() as u64) as usize];
    let range = rng.one_of(&other.ranges).bytes();
    let before = range.start.saturating_sub(bytes);
    match rng.below(8) {
        0 | 1 => range.start,
        2 => range.end,
        3 => range.end.saturating_sub(1),
        4 => before,
        5 => before + 1,
        6 => range.start + SECTOR_BYTES,
        _ => range.start + rng.below(SECTOR_BYTES),
    }
}

/// An address from which so many bytes meet no IOPB and none of these ranges,
/// if a few tries find one.
pub fn apart(rng: &mut Rng, lay: &Lay, bytes: u64, others: &[Range]) -> u64 {
    let last = lay.memory.saturating_sub(bytes);
    let meet = |at: u64, first: u64, end: u64| at < end && first < at + bytes;
    let mut address = 0;
    for _ in 0..12 {
        address = rng.between(0, last);
        let iopb = lay.addresses.iter().any(|iopb| meet(address, *iopb, iopb + IOPB_BYTES));
        let other =
            others.iter().any(|range| meet(address, range.bytes().start, range.bytes().end));
        if !iopb && !other {
            break;
        }
    }
    address
}
