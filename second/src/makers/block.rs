//! Writes the thirty bytes of an IOPB, for the makers of cases. The bytes
//! that the rules ignore get other values, so that a wrong offset shows.

use crate::iopb::IOPB_BYTES;
use crate::makers::rng::Rng;

const CHEN: u8 = 0x20;
const SGM: u8 = 0x10;

#[derive(Clone, Copy, Debug, PartialEq, Eq)]
pub struct Block {
    pub bytes: [u8; IOPB_BYTES as usize],
}

impl Block {
    /// A command with every field 0 and set patterns in the ignored bytes.
    pub fn new(command: u8) -> Block {
        let mut bytes = [0; IOPB_BYTES as usize];
        for at in [0x01, 0x02, 0x03, 0x06, 0x07, 0x0E, 0x0F, 0x18, 0x19, 0x1A, 0x1B, 0x1C, 0x1D] {
            bytes[at] = 0xA0 + at as u8;
        }
        bytes[0x00] = command;
        // The bits over the unit are ignored.
        bytes[0x05] = 0xA8;
        Block { bytes }
    }

    /// The same, with random bytes and bits where the rules look at none.
    pub fn random(rng: &mut Rng, command: u8) -> Block {
        let mut block = Block::new(command & 0x0F);
        for at in [0x01, 0x02, 0x03, 0x06, 0x07, 0x0E, 0x0F, 0x18, 0x19, 0x1A, 0x1B, 0x1C, 0x1D] {
            block.bytes[at] = rng.byte();
        }
        block.bytes[0x00] |= rng.byte() & 0xC0;
        block.bytes[0x05] = rng.byte() & 0xF8;
        block
    }

    /// Exactly these bytes at these places, all others 00, as decks are told.
    pub fn of(parts: &[(usize, u8)]) -> Block {
        let mut bytes = [0; IOPB_BYTES as usize];
        for (at, byte) in parts {
            bytes[*at] = *byte;
        }
        Block { bytes }
    }

    pub fn count(mut self, count: u64) -> Block {
        self.set(0x08, &(count as u16).to_be_bytes());
        self
    }

    pub fn at(mut self, cylinder: u64, head: u64, sector: u64) -> Block {
        self.set(0x0A, &(cylinder as u16).to_be_bytes());
        self.set(0x0C, &[head as u8, sector as u8]);
        self
    }

    pub fn data(mut self, address: u64) -> Block {
        self.set(0x10, &(address as u32).to_be_bytes());
        self
    }

    /// The next address alone; CHEN stays as it is.
    pub fn next_address(mut self, address: u64) -> Block {
        self.set(0x14, &(address as u32).to_be_bytes());
        self
    }

    /// The next address, and CHEN set.
    pub fn next(mut self, address: u64) -> Block {
        self.bytes[0x00] |= CHEN;
        self.next_address(address)
    }

    pub fn sgm(mut self) -> Block {
        self.bytes[0x00] |= SGM;
        self
    }

    /// SGM set, and a link list of so many elements at this address. The three
    /// ignored bits of byte 6 stay as they are.
    pub fn list(mut self, address: u64, elements: u64) -> Block {
        self.bytes[0x06] = (self.bytes[0x06] & 0x07) | ((elements % 32) << 3) as u8;
        self.sgm().data(address)
    }

    pub fn command(mut self, command: u8) -> Block {
        self.bytes[0x00] = (self.bytes[0x00] & 0xF0) | command;
        self
    }

    pub fn subfunction(mut self, code: u8) -> Block {
        self.bytes[0x04] = code;
        self
    }

    /// The unit alone; the bits over it stay as they are.
    pub fn unit(mut self, unit: u8) -> Block {
        self.bytes[0x05] = (self.bytes[0x05] & 0xF8) | unit;
        self
    }

    pub fn byte(mut self, at: usize, byte: u8) -> Block {
        self.bytes[at] = byte;
        self
    }

    fn set(&mut self, at: usize, bytes: &[u8]) {
        self.bytes[at..at + bytes.len()].copy_from_slice(bytes);
    }
}
