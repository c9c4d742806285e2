//! Numbers and places of sectors: every place of every small drive, counted by
//! hand from the first on; and the ends of the largest drives.

use second::drive::Drive;
use second::place::{place, Place};

fn drive(max_cylinder: u16, max_head: u8, max_sector: u8, last: u8) -> Drive {
    let last_head_max_sector = last;
    Drive { max_cylinder, max_head, max_sector, last_head_max_sector, protected: false }
}

/// Every drive with maxima below these, the last head never the longer.
fn small_drives() -> Vec<Drive> {
    let mut drives = Vec::new();
    for max_cylinder in 0..4 {
        for max_head in 0..5 {
            for max_sector in 0..6 {
                for last in 0..=max_sector {
                    drives.push(drive(max_cylinder, max_head, max_sector, last));
                }
            }
        }
    }
    drives
}

/// The place after this one: the next sector of its head, or the first of the
/// next head, or the first of the next cylinder; none after the last.
fn after(drive: &Drive, place: Place) -> Option<Place> {
    let Place { cylinder, head, sector } = place;
    let on_last_head = head == u64::from(drive.max_head);
    let most = if on_last_head { drive.last_head_max_sector } else { drive.max_sector };
    if sector < u64::from(most) {
        Some(Place { sector: sector + 1, ..place })
    } else if !on_last_head {
        Some(Place { cylinder, head: head + 1, sector: 0 })
    } else if cylinder < u64::from(drive.max_cylinder) {
        Some(Place { cylinder: cylinder + 1, head: 0, sector: 0 })
    } else {
        None
    }
}

#[test]
fn going_through_every_small_drive() {
    for drive in small_drives() {
        let mut here = Some(Place::default());
        let mut number = 0;
        while let Some(at) = here {
            assert_eq!(drive.sector_number(at.cylinder, at.head, at.sector), number, "{drive:?}");
            assert_eq!(place(&drive, number), (0, at), "{drive:?}");
            here = after(&drive, at);
            number += 1;
        }
        assert_eq!(drive.number_of_sectors(), number, "{drive:?}");
        for past in [number, number + 1, 2 * number, 0xFFFF_FFFF] {
            assert_eq!(place(&drive, past), (10, Place::default()), "{drive:?}");
        }
    }
}

#[test]
fn every_place_has_a_number_of_its_own() {
    for drive in small_drives() {
        let mut numbers = Vec::new();
        for cylinder in 0..=u64::from(drive.max_cylinder) {
            for head in 0..=u64::from(drive.max_head) {
                for sector in 0..=drive.max_sector_of(head) {
                    let number = drive.sector_number(cylinder, head, sector);
                    assert_eq!(place(&drive, number), (0, Place { cylinder, head, sector }));
                    numbers.push(number);
                }
            }
        }
        let all: Vec<u64> = (0..drive.number_of_sectors()).collect();
        assert_eq!(numbers, all, "{drive:?}");
    }
}

/// Equal heads are numbered by the formula of document 01, also past the
/// maxima.
#[test]
fn equal_heads_by_the_formula() {
    for (max_cylinder, max_head, max_sector) in
        [(1, 1, 7), (0, 0, 0), (3, 2, 5), (9, 0, 4), (65_535, 255, 255), (254, 3, 0)]
    {
        let drive = Drive::with_equal_heads(max_cylinder, max_head, max_sector);
        let cylinders = u64::from(max_cylinder) + 1;
        let heads = u64::from(max_head) + 1;
        let per_track = u64::from(max_sector) + 1;
        assert_eq!(drive.number_of_sectors(), cylinders * heads * per_track);
        for cylinder in [0, 1, cylinders - 1, cylinders, 65_535] {
            for head in [0, 1, heads - 1, heads, 255] {
                for sector in [0, 1, per_track - 1, per_track, 255] {
                    let formula = cylinder * heads * per_track + head * per_track + sector;
                    assert_eq!(drive.sector_number(cylinder, head, sector), formula);
                }
            }
        }
    }
}

/// Past the maxima the number is worked out the same way: heads above the
/// maximum count as full tracks.
#[test]
fn numbers_past_the_maxima() {
    let drive = drive(1, 2, 4, 1);
    for (at, number) in [
        ((0, 2, 2), 12),
        ((0, 2, 4), 14),
        ((0, 3, 0), 15),
        ((0, 4, 7), 27),
        ((2, 0, 0), 24),
        ((2, 3, 5), 44),
        ((65_535, 255, 255), 65_535 * 12 + 255 * 5 + 255),
    ] {
        assert_eq!(drive.sector_number(at.0, at.1, at.2), number);
    }
}

/// The numbers of a pack with two heads of 5 sectors and one of 2.
#[test]
fn one_pack_by_hand() {
    let pack = drive(1, 2, 4, 1);
    assert_eq!(pack.number_of_sectors(), 24);
    for (number, at) in [
        (0, (0, 0, 0)),
        (4, (0, 0, 4)),
        (5, (0, 1, 0)),
        (9, (0, 1, 4)),
        (10, (0, 2, 0)),
        (11, (0, 2, 1)),
        (12, (1, 0, 0)),
        (22, (1, 2, 0)),
        (23, (1, 2, 1)),
    ] {
        let (cylinder, head, sector) = at;
        assert_eq!(pack.sector_number(cylinder, head, sector), number);
        assert_eq!(place(&pack, number), (0, Place { cylinder, head, sector }));
    }
    assert_eq!(place(&pack, 24), (10, Place::default()));
}

#[test]
fn one_head_is_the_last() {
    for others in 2..6 {
        let drive = drive(3, 0, others, 2);
        assert_eq!(drive.number_of_sectors(), 12);
        let at = Place { cylinder: 3, head: 0, sector: 2 };
        assert_eq!(place(&drive, 11), (0, at));
        assert_eq!(place(&drive, 12), (10, Place::default()));
        assert_eq!(drive.sector_number(1, 0, 0), 3);
    }
}

#[test]
fn the_largest_drives() {
    let last_number = 0xFFFF_FFFF;
    let equal = drive(65_535, 255, 255, 255);
    assert_eq!(equal.number_of_sectors(), 1 << 32);
    let last = Place { cylinder: 65_535, head: 255, sector: 255 };
    assert_eq!(place(&equal, last_number), (0, last));

    // 65,536 cylinders of 255 x 256 + 1 sectors.
    let short = drive(65_535, 255, 255, 0);
    let sectors = 4_278_255_616;
    assert_eq!(short.number_of_sectors(), sectors);
    let last = Place { cylinder: 65_535, head: 255, sector: 0 };
    assert_eq!(place(&short, sectors - 1), (0, last));
    assert_eq!(short.sector_number(65_535, 255, 0), sectors - 1);
    assert_eq!(place(&short, sectors), (10, Place::default()));
    assert_eq!(place(&short, last_number), (10, Place::default()));
    assert_eq!(place(&short, 65_280), (0, Place { cylinder: 0, head: 255, sector: 0 }));
    assert_eq!(place(&short, 65_281), (0, Place { cylinder: 1, head: 0, sector: 0 }));
}

#[test]
fn a_last_maximum_above_the_other() {
    for above in [drive(1, 2, 4, 5), drive(0, 0, 0, 1), drive(65_535, 255, 254, 255)] {
        for number in [0, 1, above.number_of_sectors(), 0xFFFF_FFFF] {
            assert_eq!(place(&above, number), (1, Place::default()));
        }
    }
    assert_eq!(place(&drive(0, 0, 255, 255), 255).0, 0);
}
