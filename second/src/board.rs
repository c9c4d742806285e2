//! The ground the board works on: the lent memory, and four units, each with a
//! lent image and a drive, or absent. Sizes are judged here (number 1). All sums
//! are in 64 bits, so none wraps.

use crate::drive::Drive;

/// The most bytes that memory may have.
pub const MEMORY_LIMIT: u64 = 65_536;
/// The most bytes that an image may have.
pub const IMAGE_LIMIT: u64 = 16_777_216;
/// The bytes of one sector.
pub const SECTOR_BYTES: u64 = 512;
/// How many units there can be. A unit with a larger number is always absent.
pub const UNITS: u64 = 4;

/// What is lent for one unit, and whether the unit is there. What is lent for
/// an absent one is not looked at.
#[derive(Clone, Debug, Default, PartialEq, Eq)]
pub struct Unit {
    pub there: bool,
    pub drive: Drive,
    pub image: Vec<u8>,
}

impl Unit {
    /// A unit that is there.
    pub fn with(drive: Drive, image: Vec<u8>) -> Unit {
        Unit { there: true, drive, image }
    }

    /// The image is inside its limit and exactly the drive's size.
    pub fn image_fits(&self) -> bool {
        let bytes = self.image.len() as u64;
        bytes <= IMAGE_LIMIT && bytes == SECTOR_BYTES * self.drive.number_of_sectors()
    }

    /// The image fits a drive whose last head is right. Where it is not, no
    /// image is right, whatever its length.
    pub fn image_right(&self) -> bool {
        self.drive.last_head_right() && self.image_fits()
    }
}

/// Memory and the four units.
#[derive(Clone, Debug, PartialEq, Eq)]
pub struct Board {
    pub memory: Vec<u8>,
    pub units: [Unit; UNITS as usize],
}

impl Default for Board {
    /// Empty memory and empty images; unit 0 is there and no other.
    fn default() -> Board {
        Board::with_unit_0(Vec::new(), Drive::default(), Vec::new())
    }
}

impl Board {
    /// A board with unit 0 alone.
    pub fn with_unit_0(memory: Vec<u8>, drive: Drive, image: Vec<u8>) -> Board {
        let mut units: [Unit; UNITS as usize] = Default::default();
        units[0] = Unit::with(drive, image);
        Board { memory, units }
    }

    pub fn memory_bytes(&self) -> u64 {
        self.memory.len() as u64
    }

    /// The unit of this number, if it is there. Above 3 none ever is.
    pub fn unit(&self, number: u64) -> Option<&Unit> {
        self.units.get(number as usize).filter(|unit| unit.there)
    }

    /// The drive of the unit of this number. Where it is absent, that is one
    /// whose maxima are all 0 and that is open, whatever is lent for it.
    pub fn drive_of(&self, number: u64) -> Drive {
        self.unit(number).map_or(Drive::default(), |unit| unit.drive)
    }

    /// The units that are there, in order.
    pub fn present(&self) -> impl Iterator<Item = &Unit> {
        self.units.iter().filter(|unit| unit.there)
    }

    /// The image of every unit that is there is right.
    pub fn images_right(&self) -> bool {
        self.present().all(Unit::image_right)
    }

    /// Memory is inside its limit.
    pub fn memory_right(&self) -> bool {
        self.memory_bytes() <= MEMORY_LIMIT
    }

    /// Memory and all images that count are right.
    pub fn sizes_right(&self) -> bool {
        self.memory_right() && self.images_right()
    }

    /// All of `bytes` bytes from `address` on are in memory.
    pub fn in_memory(&self, address: u64, bytes: u64) -> bool {
        address + bytes <= self.memory_bytes()
    }
}
