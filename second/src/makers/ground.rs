//! Random boards: drives, memory and image, right in size, at the limits and
//! past them.

use crate::board::SECTOR_BYTES;
use crate::drive::Drive;
use crate::makers::rng::Rng;
use crate::makers::script::Script;
use crate::trial::line::Line;

/// A small board with sizes that are right; now and then a larger one. In a
/// few the last head's maximum is too large, and all else is right.
pub fn ground(rng: &mut Rng, script: &mut Script) {
    let big = rng.once_in(200);
    let drive = if big { big_drive(rng) } else { small_drive(rng) };
    let drive = if rng.percent(3) { with_last_above(rng, drive) } else { drive };
    let memory = match rng.below(20) {
        _ if big => rng.between(60_000, 65_536),
        0 => rng.between(0, 120),
        1 => 4_096,
        2..=4 => SECTOR_BYTES * rng.between(1, 16),
        5..=11 => rng.between(512, 3_000),
        _ => rng.between(512, 8_192),
    };
    script.say(Line::Drive(drive));
    script.say(Line::Memory { length: memory, a: rng.byte(), b: rng.byte() });
    fill_image(rng, script);
}

/// An image of the chosen unit's drive's size. An odd step from sector to sector keeps all
/// sectors of a small drive apart.
pub fn fill_image(rng: &mut Rng, script: &mut Script) {
    let length = SECTOR_BYTES * script.state.drive().number_of_sectors();
    let (a, b, c) = (rng.byte(), rng.byte() | 1, rng.byte());
    script.say(Line::Image { length, a, b, c });
}

/// A drive of at most 60 sectors.
pub fn small_drive(rng: &mut Rng) -> Drive {
    let protected = rng.percent(12);
    let (max_cylinder, max_head, max_sector) = match rng.below(16) {
        0 => (1, 1, 7),
        1 => (0, 0, rng.below(24)),
        2 => (0, rng.below(20), rng.below(3)),
        3 => (rng.below(24), 0, rng.below(2)),
        4 => (rng.below(8), 0, rng.below(7)),
        _ => {
            let heads = [0, 1, 1, 1, 2, 2];
            (rng.below(4), rng.one_of(&heads), rng.one_of(&[0, 1, 2, 2, 3, 4]))
        }
    };
    let drive = Drive::with_equal_heads(max_cylinder as u16, max_head as u8, max_sector as u8);
    Drive { protected, ..with_some_last(rng, drive) }
}

/// A drive that has 130 sectors and more while its heads are equal, so that
/// counts can take two bytes.
fn big_drive(rng: &mut Rng) -> Drive {
    let (max_cylinder, max_head, max_sector) = rng.one_of(&[
        (0, 0, 255),
        (0, 255, 0),
        (0, 255, 1),
        (129, 0, 0),
        (299, 0, 0),
        (129, 1, 2),
        (3, 4, 7),
        (1, 8, 8),
    ]);
    let drive = Drive::with_equal_heads(max_cylinder, max_head, max_sector);
    Drive { protected: rng.percent(10), ..with_some_last(rng, drive) }
}

/// The last head shorter than the others, where that can be; in some drives
/// like them.
pub fn with_some_last(rng: &mut Rng, drive: Drive) -> Drive {
    if drive.max_sector == 0 || rng.percent(20) {
        return drive;
    }
    let others = u64::from(drive.max_sector);
    let last = if rng.once_in(4) { rng.one_of(&[0, others - 1]) } else { rng.below(others) };
    Drive { last_head_max_sector: last as u8, ..drive }
}

/// The last head's maximum above the other, by a little.
pub fn with_last_above(rng: &mut Rng, drive: Drive) -> Drive {
    // Above 255 there is nothing, so the others must be below it.
    let others = u64::from(drive.max_sector).min(254);
    let last = rng.one_of(&[others + 1, others + 1, (others + 3).min(255)]);
    Drive { max_sector: others as u8, last_head_max_sector: last as u8, ..drive }
}

/// A board at or past a limit. The largest images come seldom, being slow.
pub fn limit_ground(rng: &mut Rng, script: &mut Script) {
    match rng.below(60) {
        0 => largest_image(rng, script),
        1..=10 => huge_drive(rng, script),
        _ => {
            let length = rng.one_of(&[65_535, 65_536, 65_537, 66_560]);
            script.say(Line::Drive(small_drive(rng)));
            script.say(Line::Memory { length, a: 0, b: 0 });
            fill_image(rng, script);
        }
    }
}

/// Images at the limit and past it, most with the drive's size.
fn largest_image(rng: &mut Rng, script: &mut Script) {
    let (max_cylinder, max_head, max_sector, last_head_max_sector, length) = rng.one_of(&[
        (255, 7, 15, 15, 16_777_216),
        (255, 7, 17, 1, 16_777_216),
        (127, 255, 0, 0, 16_777_216),
        (32_767, 0, 9, 0, 16_777_216),
        (32_766, 0, 0, 0, 16_777_216),
        (330, 10, 8, 8, 16_777_728),
        (330, 9, 9, 8, 16_777_728),
        (3_276, 9, 0, 0, 16_778_240),
    ]);
    let protected = rng.percent(10);
    script.say(Line::Drive(Drive {
        max_cylinder,
        max_head,
        max_sector,
        last_head_max_sector,
        protected,
    }));
    script.say(Line::Memory { length: rng.between(600, 2_000), a: 0, b: 0 });
    script.say(Line::Image { length, a: rng.byte(), b: rng.byte() | 1, c: rng.byte() });
}

/// A drive of 2 to the 32nd sectors, which in 32 bits would be 0 again; or of
/// somewhat fewer, where the last head is shorter.
fn huge_drive(rng: &mut Rng, script: &mut Script) {
    let last_head_max_sector = rng.one_of(&[255, 255, 254, 127, 0]);
    let drive = Drive { last_head_max_sector, ..Drive::with_equal_heads(65_535, 255, 255) };
    script.say(Line::Drive(Drive { protected: rng.percent(10), ..drive }));
    script.say(Line::Memory { length: rng.between(30, 600), a: 0, b: 0 });
    script.say(Line::Image { length: rng.one_of(&[0, 512]), a: 1, b: 1, c: 1 });
}

/// A drive of any size, for calls that ask for no image.
pub fn any_drive(rng: &mut Rng) -> Drive {
    let max_cylinder = any_maximum(rng, 65_535) as u16;
    let max_head = any_maximum(rng, 255) as u8;
    let max_sector = any_maximum(rng, 255) as u8;
    let equal = Drive::with_equal_heads(max_cylinder, max_head, max_sector);
    let drive = with_some_last(rng, equal);
    if rng.percent(10) {
        with_last_above(rng, drive)
    } else {
        drive
    }
}

/// A maximum at an end, a small one, or any.
fn any_maximum(rng: &mut Rng, most: u64) -> u64 {
    match rng.below(6) {
        0 => 0,
        1 => most,
        2 | 3 => rng.below(8),
        _ => rng.between(0, most),
    }
}

/// Another drive than the right one: mostly of another size, and in some the
/// last head's maximum is too large.
pub fn other_drive(rng: &mut Rng, right: Drive) -> Drive {
    match rng.below(10) {
        0 => Drive { max_cylinder: right.max_cylinder.wrapping_add(1), ..right },
        1 => Drive { max_head: right.max_head.wrapping_add(1), ..right },
        2 => Drive { max_sector: right.max_sector.wrapping_add(1), ..right },
        3 => Drive { last_head_max_sector: right.max_sector, ..right },
        4 => Drive { last_head_max_sector: right.last_head_max_sector.saturating_sub(1), ..right },
        5 => with_last_above(rng, right),
        6 => Drive { last_head_max_sector: 255, ..right },
        7 | 8 => same_size_last_above(rng, right),
        _ => Drive { protected: right.protected, ..Drive::with_equal_heads(65_535, 255, 255) },
    }
}

/// The last head's maximum above the other in a drive of the same size, so
/// that nothing but this is wrong: each other head gives some sectors to the
/// last. Where that cannot be, of another size.
fn same_size_last_above(rng: &mut Rng, right: Drive) -> Drive {
    for max_sector in (0..right.max_sector).rev() {
        let given = u64::from(right.max_head) * u64::from(right.max_sector - max_sector);
        let last = u64::from(right.last_head_max_sector) + given;
        if last > u64::from(max_sector) && last <= 255 {
            return Drive { max_sector, last_head_max_sector: last as u8, ..right };
        }
    }
    with_last_above(rng, right)
}
