//! The viewer over the archive: the number of its making, and the eighteen fields that it gives.
//! Where the making is refused, every field is 0.

use crate::declared as c;

/// Each field of an IOPB; a bit is 0 or 1.
#[derive(Clone, Copy, Debug, Default, PartialEq, Eq)]
pub struct Fields {
    pub errs: u8,
    pub done: u8,
    pub chen: u8,
    pub sgm: u8,
    pub command: u8,
    pub completion: u8,
    pub wrpt: u8,
    pub oncl: u8,
    pub drdy: u8,
    pub internal: u8,
    pub subfunction: u8,
    pub unit: u8,
    pub count: u16,
    pub cylinder: u16,
    pub head: u8,
    pub sector: u8,
    pub data_address: u32,
    pub next_address: u32,
}

/// What the archive shows of the IOPB at an address.
fn seen(memory: &[u8], at: u32) -> c::Iopb {
    // SAFETY: the pointer stands beside the length of its slice.
    unsafe { c::rosadenca_view(memory.as_ptr(), memory.len(), at) }
}

/// The number of a viewer's making: 2 for an odd address, then 3 for thirty bytes not all in
/// memory, else 0.
pub fn view_number(memory: &[u8], at: u32) -> u8 {
    seen(memory, at).number
}

/// All eighteen fields of the IOPB at an address.
pub fn view(memory: &[u8], at: u32) -> Fields {
    let iopb = seen(memory, at);
    Fields {
        errs: iopb.errs,
        done: iopb.done,
        chen: iopb.chen,
        sgm: iopb.sgm,
        command: iopb.command,
        completion: iopb.completion,
        wrpt: iopb.wrpt,
        oncl: iopb.oncl,
        drdy: iopb.drdy,
        internal: iopb.internal,
        subfunction: iopb.subfunction,
        unit: iopb.unit,
        count: iopb.count,
        cylinder: iopb.cylinder,
        head: iopb.head,
        sector: iopb.sector,
        data_address: iopb.data_address,
        next_address: iopb.next_address,
    }
}
