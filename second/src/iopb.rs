//! The thirty bytes of an IOPB, field by field, and the viewer over memory.
//! Numbers of several bytes have the high byte first.

use crate::board::Board;

/// The bytes of one IOPB.
pub const IOPB_BYTES: u64 = 30;

/// Each field of an IOPB, as a plain number; a bit is 0 or 1.
#[derive(Clone, Copy, Debug, Default, PartialEq, Eq)]
pub struct Fields {
    pub errs: u64,
    pub done: u64,
    pub chen: u64,
    pub sgm: u64,
    pub command: u64,
    pub code: u64,
    pub wrpt: u64,
    pub oncl: u64,
    pub drdy: u64,
    pub internal: u64,
    pub subfunction: u64,
    pub unit: u64,
    pub count: u64,
    pub cylinder: u64,
    pub head: u64,
    pub sector: u64,
    pub data: u64,
    pub next: u64,
}

impl Fields {
    /// The eighteen fields in the order in which cases print them.
    pub fn in_order(&self) -> [u64; 18] {
        [
            self.errs,
            self.done,
            self.chen,
            self.sgm,
            self.command,
            self.code,
            self.wrpt,
            self.oncl,
            self.drdy,
            self.internal,
            self.subfunction,
            self.unit,
            self.count,
            self.cylinder,
            self.head,
            self.sector,
            self.data,
            self.next,
        ]
    }
}

fn bit(byte: u8, place: u32) -> u64 {
    u64::from((byte >> place) & 1)
}

/// The number in bytes that have the high one first.
pub fn high_first(bytes: &[u8]) -> u64 {
    let mut number = 0;
    for byte in bytes {
        number = number * 256 + u64::from(*byte);
    }
    number
}

/// The fields of the IOPB at an address, odd or even. Where the thirty bytes
/// are not all in memory, every field is 0.
pub fn fields_at(board: &Board, address: u64) -> Fields {
    if !board.in_memory(address, IOPB_BYTES) {
        return Fields::default();
    }
    let from = address as usize;
    let b = &board.memory[from..from + IOPB_BYTES as usize];
    Fields {
        errs: bit(b[0x00], 7),
        done: bit(b[0x00], 6),
        chen: bit(b[0x00], 5),
        sgm: bit(b[0x00], 4),
        command: u64::from(b[0x00] & 0x0F),
        code: u64::from(b[0x01]),
        wrpt: bit(b[0x02], 4),
        oncl: bit(b[0x02], 1),
        drdy: bit(b[0x02], 0),
        internal: u64::from(b[0x03]),
        subfunction: u64::from(b[0x04]),
        // Three bits, as in the manual, 4.1.6: units 0 to 7.
        unit: u64::from(b[0x05] & 0x07),
        count: high_first(&b[0x08..0x0A]),
        cylinder: high_first(&b[0x0A..0x0C]),
        head: u64::from(b[0x0C]),
        sector: u64::from(b[0x0D]),
        data: high_first(&b[0x10..0x14]),
        next: high_first(&b[0x14..0x18]),
    }
}

/// Makes a viewer: its number, and the fields that it gives. A refused viewer
/// holds an empty part, so it gives 0 for every field.
pub fn view(board: &Board, address: u64) -> (u8, Fields) {
    if address % 2 == 1 {
        return (2, Fields::default());
    }
    if !board.in_memory(address, IOPB_BYTES) {
        return (3, Fields::default());
    }
    (0, fields_at(board, address))
}
