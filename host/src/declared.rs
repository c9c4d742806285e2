//! What the archive declares: its structs, laid out as C lays them out, and its functions. A test
//! holds every field and every parameter here to the firmware's source and to the C header.

/// How many units may have a drive: 0 to 3. A unit above them is always absent.
pub const UNITS: usize = 4;

/// A drive: its maximum cylinder, head and sector and the maximum sector of its last head, counted
/// from zero, the protect mark, and whether it is there. Where all heads are equal, `last_sector` is
/// the same as `sector`; where it is above, every call that takes the drive gives 1. Of a drive that is
/// not there nothing else is looked at, but by the call for a place, which does not ask for that.
#[repr(C)]
#[derive(Clone, Copy, Debug, Default, PartialEq, Eq)]
pub struct Drive {
    pub cylinder: u16,
    pub head: u8,
    pub sector: u8,
    pub last_sector: u8,
    pub protected: bool,
    pub present: bool,
}

/// The drives of the units, in order.
#[repr(C)]
#[derive(Clone, Copy, Debug, Default, PartialEq, Eq)]
pub struct LentDrives {
    pub units: [Drive; 4],
}

/// A place on a drive, as an IOPB names it.
#[repr(C)]
#[derive(Clone, Copy, Debug, Default, PartialEq, Eq)]
pub struct Place {
    pub cylinder: u16,
    pub head: u8,
    pub sector: u8,
}

/// What the call for the place of a sector gives: the place, which is 0, 0, 0 where the call's number
/// is not 0, and that number.
#[repr(C)]
#[derive(Clone, Copy, Debug, Default, PartialEq, Eq)]
pub struct Placed {
    pub place: Place,
    pub number: u8,
}

/// One range of a link list: so many bytes of memory from an address on.
#[repr(C)]
#[derive(Clone, Copy, Debug, Default, PartialEq, Eq)]
pub struct Link {
    pub address: u32,
    pub length: u16,
    /// 0 after the walk; nothing looks at it.
    pub unused: u16,
}

/// One accepted command, as the walk leaves it in the table. Its sectors are those of its unit. It has a
/// link list exactly if `ranges` is not 0; `list` then holds its ranges, as the walk copied them. Its
/// close posts `code`, and beside it `fitted`: how many sectors would have fitted, 255 if more, and 0
/// where the walk tells none.
#[repr(C)]
#[derive(Clone, Copy, Debug, Default, PartialEq, Eq)]
pub struct Record {
    pub iopb: u32,
    pub address: u32,
    pub sector: u32,
    pub taken: u32,
    pub ranges: u16,
    pub count: u16,
    /// 0 to 7 after the walk; a transfer on one that is absent gives 9.
    pub unit: u8,
    pub byte0: u8,
    pub code: u8,
    pub fitted: u8,
    pub list: [Link; 32],
}

/// What the walk gives: its number, and how many commands there are, 0 on a refusal.
#[repr(C)]
#[derive(Clone, Copy, Debug, Default, PartialEq, Eq)]
pub struct Walked {
    pub number: u8,
    pub commands: usize,
}

/// What a run gives: the steps taken, the picks refused, its number, whether all is finished.
#[repr(C)]
#[derive(Clone, Copy, Debug, Default, PartialEq, Eq)]
pub struct Ran {
    pub steps: u64,
    pub refused: u64,
    pub number: u8,
    pub finished: bool,
}

/// The IOPB at an address: the number of the view, and every field; all are 0 where that is not 0.
#[repr(C)]
#[derive(Clone, Copy, Debug, Default, PartialEq, Eq)]
pub struct Iopb {
    pub data_address: u32,
    pub next_address: u32,
    pub count: u16,
    pub cylinder: u16,
    pub number: u8,
    pub errs: u8,
    pub done: u8,
    pub chen: u8,
    pub sgm: u8,
    pub command: u8,
    pub completion: u8,
    pub wrpt: u8,
    pub oncl: u8,
    pub drdy: u8,
    pub internal: u8,
    pub subfunction: u8,
    pub unit: u8,
    pub head: u8,
    pub sector: u8,
}

/// A part of a unit's image: so many bytes from a byte on.
#[repr(C)]
#[derive(Clone, Copy, Debug, Default, PartialEq, Eq)]
pub struct Part {
    pub at: usize,
    pub length: usize,
}

// Only the safe wrapper beside this file calls these.
extern "C" {
    pub(crate) fn rosadenca_walk(
        memory: *const u8,
        memory_length: usize,
        image0: *const u8,
        image0_length: usize,
        image1: *const u8,
        image1_length: usize,
        image2: *const u8,
        image2_length: usize,
        image3: *const u8,
        image3_length: usize,
        drives: LentDrives,
        start: u32,
        table: *mut Record,
        table_length: usize,
    ) -> Walked;
    pub(crate) fn rosadenca_pick(
        memory: *mut u8,
        memory_length: usize,
        image0: *mut u8,
        image0_length: usize,
        image1: *mut u8,
        image1_length: usize,
        image2: *mut u8,
        image2_length: usize,
        image3: *mut u8,
        image3_length: usize,
        drives: LentDrives,
        table: *mut Record,
        table_length: usize,
        commands: usize,
        place: usize,
    ) -> u8;
    pub(crate) fn rosadenca_run_picks(
        memory: *mut u8,
        memory_length: usize,
        image0: *mut u8,
        image0_length: usize,
        image1: *mut u8,
        image1_length: usize,
        image2: *mut u8,
        image2_length: usize,
        image3: *mut u8,
        image3_length: usize,
        drives: LentDrives,
        table: *mut Record,
        table_length: usize,
        commands: usize,
        picks: *const u8,
        picks_length: usize,
    ) -> Ran;
    pub(crate) fn rosadenca_run_written(
        memory: *mut u8,
        memory_length: usize,
        image0: *mut u8,
        image0_length: usize,
        image1: *mut u8,
        image1_length: usize,
        image2: *mut u8,
        image2_length: usize,
        image3: *mut u8,
        image3_length: usize,
        drives: LentDrives,
        table: *mut Record,
        table_length: usize,
        commands: usize,
        budget: u64,
    ) -> Ran;
    pub(crate) fn rosadenca_look_number(
        image0: *const u8,
        image0_length: usize,
        image1: *const u8,
        image1_length: usize,
        image2: *const u8,
        image2_length: usize,
        image3: *const u8,
        image3_length: usize,
        drives: LentDrives,
        unit: u8,
        sector: u32,
    ) -> u8;
    pub(crate) fn rosadenca_look(
        image0: *const u8,
        image0_length: usize,
        image1: *const u8,
        image1_length: usize,
        image2: *const u8,
        image2_length: usize,
        image3: *const u8,
        image3_length: usize,
        drives: LentDrives,
        unit: u8,
        sector: u32,
    ) -> Part;
    pub(crate) fn rosadenca_place(drive: Drive, sector: u32) -> Placed;
    pub(crate) fn rosadenca_chain_steps(
        table: *const Record,
        table_length: usize,
        commands: usize,
    ) -> u64;
    pub(crate) fn rosadenca_view(memory: *const u8, memory_length: usize, at: u32) -> Iopb;
}
