//! Drives by their number of sectors, for the makers of cases that aim at what
//! 16, 24 or 32 bits lose: so many sectors, or so many bytes, that what is left
//! of them is a small number again.

use crate::board::SECTOR_BYTES;
use crate::drive::Drive;
use crate::makers::ground::with_some_last;
use crate::makers::rng::Rng;

/// The most cylinders of a drive, and the most sectors of a cylinder.
const MOST: u64 = 65_536;
/// The most sectors of a track, and the most heads.
const MOST_A_TRACK: u64 = 256;
/// The most bits in which the bytes of some drive lose something.
pub const MOST_BITS: u32 = 40;

/// How many sectors have as many bytes as so many bits lose.
pub const fn lost_with_bytes(bits: u32) -> u64 {
    (1 << bits) / SECTOR_BYTES
}

/// All numbers of cylinders that so many sectors can lie on.
fn cylinders_for(sectors: u64) -> impl Iterator<Item = u64> {
    (1..=MOST).filter(move |cylinders| {
        sectors % cylinders == 0 && sectors / cylinders <= MOST && sectors > 0
    })
}

/// A drive of exactly so many sectors, on as few cylinders and heads as can be;
/// none where no drive has so many.
pub fn drive_of(sectors: u64) -> Option<Drive> {
    let cylinders = cylinders_for(sectors).next()?;
    let track = (sectors / cylinders).min(MOST_A_TRACK);
    Some(with_tracks(cylinders, sectors / cylinders, track))
}

/// The same, of any shape.
pub fn some_drive_of(rng: &mut Rng, sectors: u64) -> Option<Drive> {
    let cylinders: Vec<u64> = cylinders_for(sectors).collect();
    if cylinders.is_empty() {
        return None;
    }
    let cylinders = rng.one_of(&cylinders);
    let per_cylinder = sectors / cylinders;
    let shortest = per_cylinder.div_ceil(MOST_A_TRACK);
    let track = rng.between(shortest, per_cylinder.min(MOST_A_TRACK));
    Some(with_tracks(cylinders, per_cylinder, track))
}

/// So many cylinders of so many sectors each, as full tracks of this length and
/// a last head with what is left, which may be a full track too.
fn with_tracks(cylinders: u64, per_cylinder: u64, track: u64) -> Drive {
    Drive {
        max_cylinder: (cylinders - 1) as u16,
        max_head: ((per_cylinder - 1) / track) as u8,
        max_sector: (track - 1) as u8,
        last_head_max_sector: ((per_cylinder - 1) % track) as u8,
        protected: false,
    }
}

/// A drive far larger than so many sectors, of which some bits of the number of
/// sectors or of bytes leave just these.
pub fn tempting_drive(rng: &mut Rng, sectors: u64) -> Drive {
    loop {
        let bits = rng.between(16, u64::from(MOST_BITS)) as u32;
        let more = match rng.below(4) {
            0 => MOST * rng.between(1, 40),
            1 => lost_with_bytes(rng.one_of(&[16, 24, 32])),
            _ => lost_with_bytes(bits),
        };
        if let Some(drive) = some_drive_of(rng, sectors + more) {
            return drive;
        }
    }
}

/// A drive about 2 to the 32, 31 or 16 sectors, or of 2 to the 16 and about so
/// many on a cylinder.
pub fn edge_drive(rng: &mut Rng) -> Drive {
    let less = |rng: &mut Rng| rng.below(2) as u8;
    let (head, sector) = (255 - less(rng), 255 - less(rng));
    match rng.below(6) {
        0 => Drive::with_equal_heads(65_535, 255, 255),
        1 => {
            let cylinder = 65_535 - u16::from(less(rng));
            with_some_last(rng, Drive::with_equal_heads(cylinder, head, sector))
        }
        2 => {
            let cylinder = 32_768 - u16::from(less(rng));
            with_some_last(rng, Drive::with_equal_heads(cylinder, head, sector))
        }
        3 => {
            let halves = [(127, 255), (128, 255), (255, 127), (255, 128)];
            let (head, sector) = rng.one_of(&halves);
            with_some_last(rng, Drive::with_equal_heads(65_535, head, sector))
        }
        4 => {
            let last_head_max_sector = sector - less(rng);
            let cylinder = rng.below(3) as u16;
            Drive { last_head_max_sector, ..Drive::with_equal_heads(cylinder, head, sector) }
        }
        _ => {
            let sectors = MOST - 2 + rng.one_of(&[0, 1, 2, 2, 4, 6, 258]);
            some_drive_of(rng, sectors).unwrap_or(Drive::with_equal_heads(65_535, 0, 0))
        }
    }
}
