//! A board written in the ordinary way in Rust, with the same replies and no proofs: what the
//! firmware's speed is measured against, so it is written for speed as far as it stays easy to read.
//! It works in the lent table and copies none, tests sizes and table once a call and works out there how
//! many sectors each unit has to read and to write, moves sectors that follow each other by one copy,
//! works out once in a run what each command touches, and never asks twice there whether one command
//! waits for another. A link list is weighed once a call, for number 9 and for where its data lies; only
//! where two commands lie over each other by that are their ranges tested, pair by pair. Its calls are
//! not inlined, as the archive's cannot be, so that no caller's own numbers are worked into them. The
//! tests hold it to the second program.
//!
//! Tried and left out: each field of the records in an array of its own, and for each place a mask of
//! the earlier ones that it conflicts with, which the compiler works out several at a time. The run
//! by picks of 32 commands, last to first, where alone it was tried, then took 1.9 us in place of 2.7;
//! it was hard to read. Masks without such arrays were slower than none.

mod lists;

use crate::archive::{Images, ImagesMut};
use crate::declared::{Drive, LentDrives, Link, Part, Place, Placed, Ran, Record, Walked, UNITS};
use crate::field::Fields;
use lists::meet;
use std::ops::Range;

const MEMORY_LIMIT: usize = 65_536;
const IMAGE_LIMIT: usize = 16_777_216;
const SECTOR: usize = 512;
const MOST_SECTORS: u32 = (IMAGE_LIMIT / SECTOR) as u32;
const MOST_COMMANDS: usize = 32;
const IOPB: usize = 30;
const WRITE_DATA: u8 = 1;
const READ_DATA: u8 = 2;

/// The sectors of every head but the last, on one cylinder.
fn per_track(drive: Drive) -> u64 {
    u64::from(drive.sector) + 1
}

fn per_cylinder(drive: Drive) -> u64 {
    u64::from(drive.head) * per_track(drive) + u64::from(drive.last_sector) + 1
}

fn sectors(drive: Drive) -> u64 {
    (u64::from(drive.cylinder) + 1) * per_cylinder(drive)
}

/// Whether the last head's maximum is not above the other.
fn maxima_right(drive: Drive) -> bool {
    drive.last_sector <= drive.sector
}

fn image_right(image: usize, drive: Drive) -> bool {
    maxima_right(drive) && image <= IMAGE_LIMIT && image as u64 == SECTOR as u64 * sectors(drive)
}

/// A drive whose maxima are all 0 and that is not protected: what a unit has that is absent.
const NO_DRIVE: Drive =
    Drive { cylinder: 0, head: 0, sector: 0, last_sector: 0, protected: false, present: false };

fn drive_of(drives: &LentDrives, unit: u8) -> &Drive {
    let drive = drives.units.get(usize::from(unit));
    drive.filter(|drive| drive.present).unwrap_or(&NO_DRIVE)
}

/// What a transfer must keep within, worked out once for a call: the bytes of memory, and how many
/// sectors of each unit can be read and written. There are none to read on an absent unit, and none to
/// write on a protected one either.
struct Bounds {
    memory: u64,
    readable: [u32; UNITS],
    writable: [u32; UNITS],
}

impl Bounds {
    /// None where memory, or the image of a unit that is there, has the wrong size.
    #[inline(always)]
    fn new(memory: usize, images: [usize; UNITS], drives: &LentDrives) -> Option<Bounds> {
        if memory > MEMORY_LIMIT {
            return None;
        }
        let (mut readable, mut writable) = ([0; UNITS], [0; UNITS]);
        for (unit, drive) in drives.units.iter().enumerate().filter(|(_, drive)| drive.present) {
            if !image_right(images[unit], *drive) {
                return None;
            }
            readable[unit] = (images[unit] / SECTOR) as u32;
            writable[unit] = if drive.protected { 0 } else { readable[unit] };
        }
        Some(Bounds { memory: memory as u64, readable, writable })
    }

    fn hold_data(&self, address: u32, count: u16) -> bool {
        u64::from(address) + SECTOR as u64 * u64::from(count) <= self.memory
    }

    /// How many sectors of a unit a transfer can have, that writes or reads.
    fn sectors_of(&self, unit: u8, writes: bool) -> u64 {
        let units = if writes { &self.writable } else { &self.readable };
        units.get(usize::from(unit)).map_or(0, |sectors| (*sectors).into())
    }

    /// How many whole sectors memory has room for from an address on.
    fn sectors_at(&self, address: u32) -> u64 {
        self.memory.saturating_sub(u64::from(address)) / SECTOR as u64
    }
}

/// How a command will end: its code, and how many sectors would have fitted where that is told.
struct Ending {
    code: u8,
    fitted: u8,
}

impl Ending {
    /// Past an end, before which so many sectors would have fitted.
    fn past_an_end(code: u8, fitted: u64) -> Ending {
        Ending { code, fitted: fitted.min(u64::from(u8::MAX)) as u8 }
    }
}

/// A code that tells no number.
impl From<u8> for Ending {
    fn from(code: u8) -> Ending {
        Ending { code, fitted: 0 }
    }
}

/// The thirty bytes of an IOPB, if all of them are in memory.
fn iopb(memory: &[u8], at: u32) -> Option<&[u8; IOPB]> {
    memory.get(at as usize..at as usize + IOPB)?.try_into().ok()
}

fn fields(b: &[u8; IOPB]) -> Fields {
    let two = |at: usize| u16::from_be_bytes([b[at], b[at + 1]]);
    let four = |at: usize| u32::from_be_bytes([b[at], b[at + 1], b[at + 2], b[at + 3]]);
    Fields {
        errs: b[0] >> 7,
        done: b[0] >> 6 & 1,
        chen: b[0] >> 5 & 1,
        sgm: b[0] >> 4 & 1,
        command: b[0] & 15,
        completion: b[1],
        wrpt: b[2] >> 4 & 1,
        oncl: b[2] >> 1 & 1,
        drdy: b[2] & 1,
        internal: b[3],
        subfunction: b[4],
        unit: b[5] & 7,
        count: two(0x08),
        cylinder: two(0x0A),
        head: b[0x0C],
        sector: b[0x0D],
        data_address: four(0x10),
        next_address: four(0x14),
    }
}

/// The maximum sector of a head.
fn maximum_on(drive: &Drive, head: u8) -> u8 {
    if head == drive.head {
        drive.last_sector
    } else {
        drive.sector
    }
}

/// How a command will end as far as that is settled before its data is looked at; `first` is the number
/// of its first sector.
fn early_ending(bounds: &Bounds, drive: &Drive, f: &Fields, first: u64) -> Ending {
    let sectors = bounds.sectors_of(f.unit, false);
    let code = if f.chen == 1 && f.next_address % 2 == 1 {
        0x1E
    } else if f.command > READ_DATA || (f.sgm == 1 && f.command == 0) || f.subfunction != 0 {
        0x14
    } else if f.command == 0 {
        0x00
    } else if !drive.present {
        0x42
    } else if f.count == 0 {
        0x13
    } else if f.cylinder > drive.cylinder {
        0x10
    } else if f.head > drive.head {
        0x11
    } else if f.sector > maximum_on(drive, f.head) {
        0x12
    } else if first + u64::from(f.count) > sectors {
        return Ending::past_an_end(0x10, sectors.saturating_sub(first));
    // no branch on the command: reads and writes often take turns
    } else if (f.command == WRITE_DATA) & drive.protected {
        0x90
    } else {
        0x00
    };
    code.into()
}

/// How a transfer without a link list will end, by where its data lies.
fn plain_ending(bounds: &Bounds, f: &Fields) -> Ending {
    if bounds.hold_data(f.data_address, f.count) {
        Ending::from(0x00)
    } else {
        Ending::past_an_end(0x4B, bounds.sectors_at(f.data_address))
    }
}

fn data_bytes(count: u16) -> u32 {
    SECTOR as u32 * u32::from(count)
}

/// The code of a transfer by its link list, which was read.
fn list_code(bounds: &Bounds, links: &[Link], count: u16) -> u8 {
    let weighed = lists::weigh(links);
    if weighed.bytes != data_bytes(count) {
        0x1C
    } else if weighed.odd {
        0x1F
    } else if u64::from(weighed.hull.end) > bounds.memory {
        0x4B
    } else {
        0x00
    }
}

/// Follows the chain, and notes where its IOPBs are; the error is the number. An IOPB that lies past
/// all earlier ones shares no byte with them: only where one goes back are they looked at.
fn follow(memory: &[u8], start: u32, found: &mut [u32; MOST_COMMANDS]) -> Result<usize, u8> {
    if start % 2 == 1 {
        return Err(2);
    }
    let (mut at, mut past) = (start, 0);
    for commands in 0..MOST_COMMANDS {
        let bytes = iopb(memory, at).ok_or(3)?;
        if at >= past {
            past = at + IOPB as u32;
        } else if found[..commands].iter().any(|earlier| earlier.abs_diff(at) < IOPB as u32) {
            return Err(4);
        }
        found[commands] = at;
        let f = fields(bytes);
        if f.chen == 0 || f.next_address % 2 == 1 {
            return Ok(commands + 1);
        }
        at = f.next_address;
    }
    Err(5)
}

/// A record of zeros. It is a constant, so that filling one is filling bytes.
const BLANK: Record = Record {
    iopb: 0,
    address: 0,
    sector: 0,
    taken: 0,
    ranges: 0,
    count: 0,
    byte0: 0,
    code: 0,
    fitted: 0,
    unit: 0,
    list: [Link { address: 0, length: 0, unused: 0 }; lists::MOST_LINKS],
};

/// Fills the record of the command whose IOPB is at an address, in its place in the table.
fn fill(memory: &[u8], bounds: &Bounds, drives: &LentDrives, at: u32, r: &mut Record) {
    let bytes = iopb(memory, at).expect("the chain was followed through it");
    let f = fields(bytes);
    let drive = drive_of(drives, f.unit);
    let first = u64::from(f.cylinder) * per_cylinder(*drive)
        + u64::from(f.head) * per_track(*drive)
        + u64::from(f.sector);
    *r = BLANK;
    r.iopb = at;
    r.address = f.data_address;
    r.sector = first as u32;
    r.count = f.count;
    r.unit = f.unit;
    r.byte0 = bytes[0];
    Ending { code: r.code, fitted: r.fitted } = early_ending(bounds, drive, &f, first);
    if r.code != 0 || f.command == 0 {
        return;
    }
    if f.sgm == 0 {
        Ending { code: r.code, fitted: r.fitted } = plain_ending(bounds, &f);
        return;
    }
    let elements = lists::elements(bytes[6]);
    if !lists::read(memory, f.data_address, elements, &mut r.list) {
        r.code = 0x4B;
        return;
    }
    r.ranges = elements as u16;
    r.code = list_code(bounds, &r.list[..elements], f.count);
}

/// A refused walk leaves the table alone, so the chain is followed to its end before a record is
/// written.
#[inline(never)]
pub fn walk(
    memory: &[u8],
    images: &Images,
    drives: &LentDrives,
    start: u32,
    table: &mut [Record],
) -> Walked {
    let bounds = Bounds::new(memory.len(), images.map(<[u8]>::len), drives);
    let Some(bounds) = bounds.filter(|_| table.len() >= MOST_COMMANDS) else {
        return Walked { number: 1, commands: 0 };
    };
    let mut found = [0; MOST_COMMANDS];
    match follow(memory, start, &mut found) {
        Err(number) => Walked { number, commands: 0 },
        Ok(commands) => {
            for (record, at) in table.iter_mut().zip(&found[..commands]) {
                fill(memory, &bounds, drives, *at, record);
            }
            Walked { number: 0, commands }
        }
    }
}

#[derive(Clone, Copy, PartialEq, Eq)]
enum Kind {
    Read,
    Write,
    /// Moves no sector: only its status is posted.
    Still,
}

fn kind(r: &Record) -> Kind {
    // a transfer has code 00: code and command are tested as one number
    const READ: u16 = u16::from_be_bytes([0, READ_DATA]);
    const WRITE: u16 = u16::from_be_bytes([0, WRITE_DATA]);
    match u16::from_be_bytes([r.code, r.byte0 & 15]) {
        READ => Kind::Read,
        WRITE => Kind::Write,
        _ => Kind::Still,
    }
}

fn steps(r: &Record) -> u32 {
    match kind(r) {
        Kind::Still => 1,
        _ => u32::from(r.count),
    }
}

fn finished(r: &Record) -> bool {
    r.taken == steps(r)
}

/// From where to where the data of each command with a list goes. For the others it says nothing:
/// theirs follows from address and count.
type Hulls = [Range<u32>; MOST_COMMANDS];

const NO_HULLS: Hulls = [const { 0..0 }; MOST_COMMANDS];

/// Whether the link list of a transfer is what it must be; notes where it lies.
fn list_sound(bounds: &Bounds, r: &Record, hull: &mut Range<u32>) -> bool {
    let weighed = lists::weigh(lists::used(r));
    *hull = weighed.hull;
    (r.ranges as usize <= lists::MOST_LINKS)
        & (u64::from(hull.end) <= bounds.memory)
        & (weighed.bytes == data_bytes(r.count))
}

/// Whether the data of a transfer is where it may be.
fn data_sound(bounds: &Bounds, r: &Record, hull: &mut Range<u32>) -> bool {
    if r.ranges == 0 {
        return bounds.hold_data(r.address, r.count);
    }
    list_sound(bounds, r, hull)
}

fn sound(bounds: &Bounds, r: &Record, hull: &mut Range<u32>) -> bool {
    if u64::from(r.iopb) + IOPB as u64 > bounds.memory {
        return false;
    }
    let mut moves = |writes| {
        let end = u64::from(r.sector) + u64::from(r.count);
        // nearly always all are so: one branch for them together
        (r.count != 0)
            & (r.taken <= u32::from(r.count))
            & data_sound(bounds, r, hull)
            & (end <= bounds.sectors_of(r.unit, writes))
    };
    match kind(r) {
        Kind::Still => r.taken <= 1,
        Kind::Read => moves(false),
        Kind::Write => moves(true),
    }
}

/// The numbers that stand before any place is looked at: 1, then 9, else 0; then all hulls are noted.
#[inline(always)]
fn refused(
    memory: &[u8],
    images: &ImagesMut,
    drives: &LentDrives,
    table: &[Record],
    commands: usize,
    hulls: &mut Hulls,
) -> u8 {
    let lengths = images.each_ref().map(|image| image.len());
    let bounds = Bounds::new(memory.len(), lengths, drives);
    let Some(bounds) = bounds.filter(|_| table.len() >= MOST_COMMANDS) else {
        return 1;
    };
    if commands > MOST_COMMANDS {
        return 9;
    }
    let mut in_use = table[..commands].iter().zip(hulls);
    if in_use.all(|(record, hull)| sound(&bounds, record, hull)) {
        0
    } else {
        9
    }
}

/// What a sound command touches: its status bytes from `status` on, its data, its sectors. Where
/// nothing moves, the last two are empty ranges, which meet no other. Of a command with a link list
/// the data here is only where its ranges lie at most. Sectors are numbered through all units, each having
/// room for as many as an image can have, so that those of two units never meet.
struct Touched {
    kind: Kind,
    listed: bool,
    status: u32,
    data: Range<u32>,
    sectors: Range<u32>,
}

fn touched(r: &Record, hull: &Range<u32>) -> Touched {
    let kind = kind(r);
    let listed = kind != Kind::Still && r.ranges != 0;
    let count = if kind == Kind::Still { 0 } else { r.count };
    // these wrap only where nothing moves, or where the record is not in use and its touch not looked at
    let first = r.sector.wrapping_add(MOST_SECTORS * u32::from(r.unit));
    let data_end = r.address.wrapping_add(data_bytes(count));
    Touched {
        kind,
        listed,
        status: r.iopb,
        data: if listed { hull.clone() } else { r.address..data_end },
        sectors: first..first.wrapping_add(u32::from(count)),
    }
}

impl Touched {
    fn posted(&self) -> Range<u32> {
        self.status..self.status + 4
    }

    /// Whether bytes of memory have one in common with its data, by its ranges where it has a list.
    fn data_meets(&self, own: &Record, bytes: &Range<u32>) -> bool {
        meet(&self.data, bytes) && (!self.listed || lists::meets(lists::used(own), bytes))
    }
}

/// Whether one of two commands writes a byte or a sector that the other touches. Both write their
/// status; a read writes its data, a write its sectors. Their records are asked only where a list
/// has a say.
// inlined, so that what is touched stays in registers
#[inline(always)]
fn conflict(one: (&Touched, &Record), other: (&Touched, &Record)) -> bool {
    let (a, b) = (one.0, other.0);
    let either = |kind| a.kind == kind || b.kind == kind;
    if meet(&a.posted(), &b.posted()) || (either(Kind::Write) && meet(&a.sectors, &b.sectors)) {
        return true;
    }
    let near = meet(&a.posted(), &b.data)
        || meet(&a.data, &b.posted())
        || (either(Kind::Read) && meet(&a.data, &b.data));
    near && (!(a.listed || b.listed) || ranges_conflict(one, other))
}

/// Whether one of two commands, of which one has a list, writes data or status over the other's.
#[inline(never)]
fn ranges_conflict((a, one): (&Touched, &Record), (b, other): (&Touched, &Record)) -> bool {
    if b.data_meets(other, &a.posted()) || a.data_meets(one, &b.posted()) {
        return true;
    }
    if a.kind != Kind::Read && b.kind != Kind::Read {
        return false;
    }
    match (a.listed, b.listed) {
        (true, true) => lists::lists_meet(lists::used(one), lists::used(other), &b.data),
        (true, false) => a.data_meets(one, &b.data),
        _ => b.data_meets(other, &a.data),
    }
}

/// Whether an unfinished command before `place` conflicts with the one there.
fn waits(table: &[Record], hulls: &Hulls, place: usize) -> bool {
    let wanted = touched(&table[place], &hulls[place]);
    let mut earlier = table[..place].iter().zip(hulls);
    earlier.any(|(record, hull)| {
        !finished(record) && conflict((&touched(record, hull), record), (&wanted, &table[place]))
    })
}

/// Takes so many steps of a command, which has as many left, and closes it after its last.
// inlined, since a call for each command is seen at one sector a command
#[inline(always)]
fn take(
    memory: &mut [u8],
    images: &mut ImagesMut,
    drives: &LentDrives,
    r: &mut Record,
    taken: u32,
) {
    let kind = kind(r);
    if kind != Kind::Still {
        let image = &mut *images[usize::from(r.unit)];
        move_sectors(memory, image, r, kind == Kind::Read, taken);
    }
    r.taken += taken;
    if finished(r) {
        close(memory, drive_of(drives, r.unit), r);
    }
}

/// Posts the status of a command that has no step left.
#[inline(always)]
fn close(memory: &mut [u8], drive: &Drive, r: &Record) {
    let errs = if r.code == 0 { 0 } else { 0x80 };
    let byte2 = if drive.protected { 0x13 } else { 0x03 };
    // as one number, so that it is one store
    let posted = u32::from_le_bytes([r.byte0 & 0x7F | 0x40 | errs, r.code, byte2, r.fitted]);
    let status = r.iopb as usize;
    memory[status..status + 4].copy_from_slice(&posted.to_le_bytes());
}

/// Moves the next sectors of a transfer, so many of them.
#[inline(always)]
fn move_sectors(memory: &mut [u8], image: &mut [u8], r: &Record, reading: bool, sectors: u32) {
    let (from, bytes) = (SECTOR * r.taken as usize, SECTOR * sectors as usize);
    let first = SECTOR * r.sector as usize;
    if r.ranges != 0 {
        let disk = &mut image[first..];
        return lists::move_pieces(memory, disk, lists::used(r), reading, from, from + bytes);
    }
    let (at, on_disk) = (r.address as usize + from, first + from);
    let (host, disk) = (&mut memory[at..at + bytes], &mut image[on_disk..on_disk + bytes]);
    if reading {
        host.copy_from_slice(disk);
    } else {
        disk.copy_from_slice(host);
    }
}

#[inline(never)]
pub fn pick(
    memory: &mut [u8],
    images: &mut ImagesMut,
    drives: &LentDrives,
    table: &mut [Record],
    commands: usize,
    place: usize,
) -> u8 {
    let mut hulls = NO_HULLS;
    let number = refused(memory, images, drives, table, commands, &mut hulls);
    if number != 0 {
        number
    } else if place >= commands {
        8
    } else if finished(&table[place]) {
        7
    } else if waits(table, &hulls, place) {
        6
    } else {
        take(memory, images, drives, &mut table[place], 1);
        0
    }
}

/// What two commands touch does not change in a run, and a finished command stays so. So the search
/// at a place goes on where its last one stopped, and after a step there is none any more; and picks
/// of one place that follow each other get one answer, as far as it has steps.
#[inline(never)]
pub fn run_picks(
    memory: &mut [u8],
    images: &mut ImagesMut,
    drives: &LentDrives,
    table: &mut [Record],
    commands: usize,
    picks: &[u8],
) -> Ran {
    let mut hulls = NO_HULLS;
    let number = refused(memory, images, drives, table, commands, &mut hulls);
    let mut ran = Ran { number, ..Ran::default() };
    if number != 0 {
        return ran;
    }
    let touches: [Touched; MOST_COMMANDS] = std::array::from_fn(|k| touched(&table[k], &hulls[k]));
    let mut left = steps_left(&table[..commands]);
    let mut searched = [0; MOST_COMMANDS];
    for same in picks.chunk_by(|one, next| one == next) {
        let (place, named) = (usize::from(same[0]), same.len() as u64);
        let mut taken = 0;
        if place < commands && left[place] > 0 {
            let command = |k: usize| (&touches[k], &table[k]);
            let blocks = |k: &usize| left[*k] > 0 && conflict(command(*k), command(place));
            let found = (searched[place]..place).find(blocks);
            searched[place] = found.unwrap_or(place);
            if found.is_none() {
                taken = u64::from(left[place]).min(named);
                take(memory, images, drives, &mut table[place], taken as u32);
                left[place] -= taken as u32;
            }
        }
        ran.steps += taken;
        ran.refused += named - taken;
    }
    ran.finished = left.iter().all(|&left| left == 0);
    ran
}

/// The steps that each command has left; none past the last command.
fn steps_left(in_use: &[Record]) -> [u32; MOST_COMMANDS] {
    let mut left = [0; MOST_COMMANDS];
    for (left, record) in left.iter_mut().zip(in_use) {
        *left = steps(record) - record.taken;
    }
    left
}

#[inline(never)]
pub fn run_written(
    memory: &mut [u8],
    images: &mut ImagesMut,
    drives: &LentDrives,
    table: &mut [Record],
    commands: usize,
    budget: u64,
) -> Ran {
    let number = refused(memory, images, drives, table, commands, &mut NO_HULLS.clone());
    let mut ran = Ran { number, finished: number == 0, ..Ran::default() };
    if number != 0 {
        return ran;
    }
    for record in &mut table[..commands] {
        let left = u64::from(steps(record) - record.taken);
        let taken = left.min(budget - ran.steps);
        if taken > 0 {
            take(memory, images, drives, record, taken as u32);
        }
        ran.steps += taken;
        ran.finished &= taken == left;
    }
    ran
}

pub fn look_number(images: &Images, drives: &LentDrives, unit: u8, sector: u32) -> u8 {
    let Some(bounds) = Bounds::new(0, images.map(<[u8]>::len), drives) else {
        return 1;
    };
    if !drive_of(drives, unit).present {
        11
    } else if u64::from(sector) >= bounds.sectors_of(unit, false) {
        10
    } else {
        0
    }
}

pub fn look_part(images: &Images, drives: &LentDrives, unit: u8, sector: u32) -> Part {
    if look_number(images, drives, unit, sector) != 0 {
        return Part { at: 0, length: 0 };
    }
    Part { at: SECTOR * sector as usize, length: SECTOR }
}

pub fn place(drive: Drive, sector: u32) -> Placed {
    let nowhere = |number| Placed { place: Place::default(), number };
    let sector = u64::from(sector);
    if !maxima_right(drive) {
        return nowhere(1);
    }
    if sector >= sectors(drive) {
        return nowhere(10);
    }
    let on_cylinder = sector % per_cylinder(drive);
    let place = Place {
        cylinder: (sector / per_cylinder(drive)) as u16,
        head: (on_cylinder / per_track(drive)) as u8,
        sector: (on_cylinder % per_track(drive)) as u8,
    };
    Placed { place, number: 0 }
}

pub fn chain_steps(table: &[Record], commands: usize) -> u64 {
    let in_use = table.iter().take(commands.min(MOST_COMMANDS));
    in_use.map(|record| u64::from(steps(record))).sum()
}

pub fn view_number(memory: &[u8], at: u32) -> u8 {
    if at % 2 == 1 {
        2
    } else if iopb(memory, at).is_none() {
        3
    } else {
        0
    }
}

pub fn view(memory: &[u8], at: u32) -> Fields {
    match iopb(memory, at) {
        Some(bytes) if at % 2 != 1 => fields(bytes),
        _ => Fields::default(),
    }
}
