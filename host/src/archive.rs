//! The safe wrapper: each function of the archive, with slices in and plain values out. A slice is
//! what the archive asks of a pointer and a length, and `&mut` keeps the slices of a call apart,
//! so nothing that a caller can pass here breaks what the C header says a caller owes.
//!
//! A host with one drive lends it in the same line: `pick(memory, &mut only_mut(image),
//! &LentDrives::one(drive), table, commands, place)`.

use crate::declared as c;
use crate::declared::{Drive, LentDrives, Part, Placed, Ran, Record, Walked, UNITS};

/// The images of the units, in order. That of an absent unit may be empty.
pub type Images<'a> = [&'a [u8]; UNITS];
/// The same, where a call may write to them.
pub type ImagesMut<'a> = [&'a mut [u8]; UNITS];

/// The image of unit 0, where no other unit has one.
pub fn only(image: &[u8]) -> Images<'_> {
    [image, &[], &[], &[]]
}

/// The same, to be written to.
pub fn only_mut(image: &mut [u8]) -> ImagesMut<'_> {
    [image, &mut [], &mut [], &mut []]
}

impl LentDrives {
    /// One drive: it is unit 0, which is there whatever `present` says. The others are absent.
    pub fn one(drive: Drive) -> LentDrives {
        let mut drives = LentDrives::default();
        drives.units[0] = Drive { present: true, ..drive };
        drives
    }
}

/// Walks the chain that starts at an address into the lent table.
pub fn walk(
    memory: &[u8],
    images: &Images,
    drives: &LentDrives,
    start: u32,
    table: &mut [Record],
) -> Walked {
    let [image0, image1, image2, image3] = images;
    // SAFETY: every pointer stands beside the length of its own slice, and the slices are apart; of
    // those that are only read, some may be the same.
    unsafe {
        c::rosadenca_walk(
            memory.as_ptr(),
            memory.len(),
            image0.as_ptr(),
            image0.len(),
            image1.as_ptr(),
            image1.len(),
            image2.as_ptr(),
            image2.len(),
            image3.as_ptr(),
            image3.len(),
            *drives,
            start,
            table.as_mut_ptr(),
            table.len(),
        )
    }
}

/// Takes one step of the command at a place.
pub fn pick(
    memory: &mut [u8],
    images: &mut ImagesMut,
    drives: &LentDrives,
    table: &mut [Record],
    commands: usize,
    place: usize,
) -> u8 {
    let [image0, image1, image2, image3] = images;
    // SAFETY: as for the walk; no two of these slices are the same.
    unsafe {
        c::rosadenca_pick(
            memory.as_mut_ptr(),
            memory.len(),
            image0.as_mut_ptr(),
            image0.len(),
            image1.as_mut_ptr(),
            image1.len(),
            image2.as_mut_ptr(),
            image2.len(),
            image3.as_mut_ptr(),
            image3.len(),
            *drives,
            table.as_mut_ptr(),
            table.len(),
            commands,
            place,
        )
    }
}

/// Takes a list of picks in turn, passing over those that are refused.
pub fn run_picks(
    memory: &mut [u8],
    images: &mut ImagesMut,
    drives: &LentDrives,
    table: &mut [Record],
    commands: usize,
    picks: &[u8],
) -> Ran {
    let [image0, image1, image2, image3] = images;
    // SAFETY: as for a pick.
    unsafe {
        c::rosadenca_run_picks(
            memory.as_mut_ptr(),
            memory.len(),
            image0.as_mut_ptr(),
            image0.len(),
            image1.as_mut_ptr(),
            image1.len(),
            image2.as_mut_ptr(),
            image2.len(),
            image3.as_mut_ptr(),
            image3.len(),
            *drives,
            table.as_mut_ptr(),
            table.len(),
            commands,
            picks.as_ptr(),
            picks.len(),
        )
    }
}

/// Takes steps as written, within a budget.
pub fn run_written(
    memory: &mut [u8],
    images: &mut ImagesMut,
    drives: &LentDrives,
    table: &mut [Record],
    commands: usize,
    budget: u64,
) -> Ran {
    let [image0, image1, image2, image3] = images;
    // SAFETY: as for a pick.
    unsafe {
        c::rosadenca_run_written(
            memory.as_mut_ptr(),
            memory.len(),
            image0.as_mut_ptr(),
            image0.len(),
            image1.as_mut_ptr(),
            image1.len(),
            image2.as_mut_ptr(),
            image2.len(),
            image3.as_mut_ptr(),
            image3.len(),
            *drives,
            table.as_mut_ptr(),
            table.len(),
            commands,
            budget,
        )
    }
}

/// The number of a look at a sector of a unit.
pub fn look_number(images: &Images, drives: &LentDrives, unit: u8, sector: u32) -> u8 {
    let [image0, image1, image2, image3] = images;
    // SAFETY: every pointer stands beside the length of its own slice.
    unsafe {
        c::rosadenca_look_number(
            image0.as_ptr(),
            image0.len(),
            image1.as_ptr(),
            image1.len(),
            image2.as_ptr(),
            image2.len(),
            image3.as_ptr(),
            image3.len(),
            *drives,
            unit,
            sector,
        )
    }
}

/// Where in its unit's image a sector lies: 0 bytes exactly where the number of the look is not 0.
pub fn look_part(images: &Images, drives: &LentDrives, unit: u8, sector: u32) -> Part {
    let [image0, image1, image2, image3] = images;
    // SAFETY: every pointer stands beside the length of its own slice.
    unsafe {
        c::rosadenca_look(
            image0.as_ptr(),
            image0.len(),
            image1.as_ptr(),
            image1.len(),
            image2.as_ptr(),
            image2.len(),
            image3.as_ptr(),
            image3.len(),
            *drives,
            unit,
            sector,
        )
    }
}

/// A sector's 512 bytes of its unit's image itself: empty exactly where the number is not 0.
pub fn look<'a>(images: &Images<'a>, drives: &LentDrives, unit: u8, sector: u32) -> &'a [u8] {
    let part = look_part(images, drives, unit, sector);
    match images.get(usize::from(unit)) {
        Some(image) => &image[part.at..part.at + part.length],
        None => &[],
    }
}

/// The place of a sector, given by its number. The call's own number is 1 where the last head's maximum
/// is above the other, then 10 for a sector that the drive has not, else 0.
pub fn place(drive: Drive, sector: u32) -> Placed {
    // SAFETY: nothing is lent.
    unsafe { c::rosadenca_place(drive, sector) }
}

/// The steps of a chain from its start: those of the first `commands` records that there are, 32 of
/// them at most.
pub fn chain_steps(table: &[Record], commands: usize) -> u64 {
    // SAFETY: the pointer stands beside the length of its slice.
    unsafe { c::rosadenca_chain_steps(table.as_ptr(), table.len(), commands) }
}
