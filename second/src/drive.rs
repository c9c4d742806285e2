//! The drive: its maxima, how many of each thing it has, and the numbers of
//! its sectors. The last head of a cylinder may have fewer sectors than the
//! others, so sectors are counted head by head and none is taken for granted.

/// The drive. The four maxima are the largest numbers, counted from zero; the
/// functions below give the numbers of things, which are one more.
#[derive(Clone, Copy, Debug, Default, PartialEq, Eq)]
pub struct Drive {
    pub max_cylinder: u16,
    pub max_head: u8,
    /// The largest sector of every head but the last.
    pub max_sector: u8,
    /// The largest sector of the last head, which may be the only one.
    pub last_head_max_sector: u8,
    pub protected: bool,
}

impl Drive {
    /// A drive whose last head is like the others, open.
    pub fn with_equal_heads(max_cylinder: u16, max_head: u8, max_sector: u8) -> Drive {
        let last_head_max_sector = max_sector;
        Drive { max_cylinder, max_head, max_sector, last_head_max_sector, protected: false }
    }

    /// The same drive as a board would take it that gave every head the same
    /// maximum. The makers aim at what differs, and the count tells it apart.
    pub const fn as_if_equal(&self) -> Drive {
        Drive { last_head_max_sector: self.max_sector, ..*self }
    }

    /// The last head has no sector above the others' maximum. Where it has,
    /// every call that takes the drive refuses with 1.
    pub fn last_head_right(&self) -> bool {
        self.last_head_max_sector <= self.max_sector
    }

    /// The last head has fewer sectors than the others; or, where it is alone,
    /// fewer than they would have.
    pub fn last_head_shorter(&self) -> bool {
        self.last_head_max_sector < self.max_sector
    }

    pub fn cylinders(&self) -> u64 {
        u64::from(self.max_cylinder) + 1
    }

    pub fn heads(&self) -> u64 {
        u64::from(self.max_head) + 1
    }

    /// The head with the largest number; with one head that is head 0.
    pub fn is_last_head(&self, head: u64) -> bool {
        head == u64::from(self.max_head)
    }

    /// The largest sector of this head.
    pub fn max_sector_of(&self, head: u64) -> u64 {
        if self.is_last_head(head) {
            u64::from(self.last_head_max_sector)
        } else {
            u64::from(self.max_sector)
        }
    }

    /// How many sectors this head has on each cylinder.
    pub fn sectors_of(&self, head: u64) -> u64 {
        self.max_sector_of(head) + 1
    }

    /// How many sectors a cylinder has: those of all its heads.
    pub fn sectors_per_cylinder(&self) -> u64 {
        (0..self.heads()).map(|head| self.sectors_of(head)).sum()
    }

    /// How many sectors the drive has.
    pub fn number_of_sectors(&self) -> u64 {
        self.cylinders() * self.sectors_per_cylinder()
    }

    /// The number of a sector: how many come before it. Only full tracks lie
    /// before it on its cylinder, since the last head is the last. It is worked
    /// out the same way even where a field is above its maximum; the code of
    /// the command says so elsewhere.
    pub fn sector_number(&self, cylinder: u64, head: u64, sector: u64) -> u64 {
        let full_track = u64::from(self.max_sector) + 1;
        cylinder * self.sectors_per_cylinder() + head * full_track + sector
    }
}
