//! The place of a sector's number: its cylinder, head and sector. It is found
//! by counting sectors away from the number, cylinder by cylinder and then head
//! by head, so that it owes nothing to the sum that makes a number of a place.

use crate::drive::Drive;

#[derive(Clone, Copy, Debug, Default, PartialEq, Eq)]
pub struct Place {
    pub cylinder: u64,
    pub head: u64,
    pub sector: u64,
}

/// The number of the call, and the place; a refusal gives place 0, 0, 0.
pub fn place(drive: &Drive, number: u64) -> (u8, Place) {
    if !drive.last_head_right() {
        return (1, Place::default());
    }
    match counted_to(drive, number) {
        Some(place) => (0, place),
        None => (10, Place::default()),
    }
}

/// The place that so many sectors come before; none past the drive's last.
pub fn counted_to(drive: &Drive, number: u64) -> Option<Place> {
    let per_cylinder = drive.sectors_per_cylinder();
    let mut left = number;
    for cylinder in 0..drive.cylinders() {
        if left < per_cylinder {
            let (head, sector) = on_cylinder(drive, left);
            return Some(Place { cylinder, head, sector });
        }
        left -= per_cylinder;
    }
    None
}

/// The head and sector that so many sectors of the same cylinder come before.
fn on_cylinder(drive: &Drive, number: u64) -> (u64, u64) {
    let mut left = number;
    for head in 0..drive.heads() {
        if left < drive.sectors_of(head) {
            return (head, left);
        }
        left -= drive.sectors_of(head);
    }
    unreachable!("the heads have all the sectors of the cylinder")
}
