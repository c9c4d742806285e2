//! What the measured work is done on: drives of 4,096 sectors, one or four of them, a chain of 32
//! transfers, reads and writes in turn, and tables that are walked and ready to run.

use crate::archive;
use crate::declared::{Drive, LentDrives, Link, Record, UNITS};
use crate::translate::{lent, second_drive_of, second_record_of};
use second::board::{Board, Unit};
use second::makers::block::Block;

/// The commands of the chain: as many as a table holds.
pub const COMMANDS: usize = 32;
/// The tables of one batch, so that the clock is read seldom.
pub const TABLES: usize = 16;
pub const SECTOR: usize = 512;
const MEMORY: usize = 65_536;
const IOPBS: usize = 32 * COMMANDS;
/// The bytes of one element of a link list.
const ELEMENT: usize = 8;
/// 16 cylinders of 16 heads, all of 16 sectors: 2 MiB.
const DRIVE: Drive =
    Drive { cylinder: 15, head: 15, sector: 15, last_sector: 15, protected: false, present: true };

pub type Table = [Record; COMMANDS];

/// What the commands of a chain are like: how many sectors each moves, where its data lies, and how
/// many units they go over, the others being absent.
#[derive(Clone, Copy)]
pub struct Shape {
    pub count: usize,
    pub data: Data,
    pub units: usize,
}

#[derive(Clone, Copy)]
pub enum Data {
    /// In one piece: no link list.
    Plain,
    /// In a list of so many ranges of one length, which fill an area of the command's own, in another
    /// order than they lie there.
    Apart(usize),
    /// In a list of so many ranges of one length, with those of all other commands between them: only
    /// the ranges tell that two commands share no byte.
    Mixed(usize),
}

impl Shape {
    pub fn plain(count: usize) -> Shape {
        Shape::of(count, Data::Plain)
    }

    /// On unit 0 alone.
    pub fn of(count: usize, data: Data) -> Shape {
        Shape { count, data, units: 1 }
    }

    /// In one piece, over all units in turn: those that follow each other on different units name the
    /// same sectors.
    pub fn over_units(count: usize) -> Shape {
        Shape { units: UNITS, ..Shape::plain(count) }
    }

    fn drives(self) -> LentDrives {
        let mut drives = LentDrives::default();
        drives.units[..self.units].fill(DRIVE);
        drives
    }

    /// How many ranges a command has: 0 without a list.
    fn ranges(self) -> usize {
        match self.data {
            Data::Plain => 0,
            Data::Apart(ranges) | Data::Mixed(ranges) => ranges,
        }
    }

    /// Where the lists end and the data begins.
    fn data_from(self) -> usize {
        IOPBS + COMMANDS * ELEMENT * self.ranges()
    }

    fn list_at(self, place: usize) -> usize {
        IOPBS + place * ELEMENT * self.ranges()
    }

    /// Where the area of a command begins: after IOPBs and lists, as far as memory goes, then from
    /// there again; over them only where it fills memory whole.
    fn area(self, place: usize) -> usize {
        let room = (MEMORY - self.data_from()) / (SECTOR * self.count);
        if room == 0 {
            return 0;
        }
        self.data_from() + place % room * SECTOR * self.count
    }

    /// The ranges of a command, in list order.
    fn list(self, place: usize) -> Vec<Link> {
        let ranges = self.ranges();
        let length = SECTOR * self.count / ranges.max(1);
        let at = |k: usize| match self.data {
            Data::Mixed(_) => self.data_from() + (k * COMMANDS + place) * length,
            // the last of the area first, and so on towards its beginning
            _ => self.area(place) + (ranges - 1 - k) * length,
        };
        (0..ranges)
            .map(|k| Link { address: at(k) as u32, length: length as u16, unused: 0 })
            .collect()
    }
}

/// An element of a list, as it lies in memory.
fn element(link: &Link) -> [u8; ELEMENT] {
    let mut bytes = [0; ELEMENT];
    bytes[..2].copy_from_slice(&link.length.to_be_bytes());
    bytes[4..].copy_from_slice(&link.address.to_be_bytes());
    bytes
}

pub struct Ground {
    pub memory: Vec<u8>,
    pub images: [Vec<u8>; UNITS],
    pub drives: LentDrives,
    /// The table as the walk leaves it.
    pub walked: Table,
    /// Where a plain copy of each command's data begins.
    pub areas: [usize; COMMANDS],
    pub tables: Vec<Table>,
    /// Picks that take every place in turn to its end.
    pub in_turn: Vec<u8>,
    /// The second program's own board and tables.
    pub second: Board,
    pub second_tables: Vec<[second::record::Record; COMMANDS]>,
}

/// The IOPB of a command: it moves `count` sectors of its own.
fn block(shape: Shape, place: usize) -> Block {
    let (turn, unit) = (place / shape.units, place % shape.units);
    let sector = (turn * shape.count) as u64;
    let command = if (turn + unit) % 2 == 0 { 2 } else { 1 };
    let block = Block::new(command).unit(unit as u8).count(shape.count as u64).at(
        sector / 256,
        sector / 16 % 16,
        sector % 16,
    );
    let block = match shape.data {
        Data::Plain => block.data(shape.area(place) as u64),
        _ => block.list(shape.list_at(place) as u64, shape.ranges() as u64),
    };
    if place + 1 == COMMANDS {
        return block;
    }
    block.next(32 * (place as u64 + 1))
}

/// The memory with the chain and its lists in it.
fn chain(shape: Shape) -> Vec<u8> {
    let mut memory: Vec<u8> = (0..MEMORY).map(|at| (at * 7) as u8).collect();
    for place in 0..COMMANDS {
        memory[32 * place..32 * place + 30].copy_from_slice(&block(shape, place).bytes);
        let list: Vec<u8> = shape.list(place).iter().flat_map(element).collect();
        let at = shape.list_at(place);
        memory[at..at + list.len()].copy_from_slice(&list);
    }
    memory
}

/// The image of a drive; an absent one has none.
fn image_of(drive: Drive) -> Vec<u8> {
    let bytes = if drive.present { 4_096 * SECTOR } else { 0 };
    (0..bytes).map(|at| (at / SECTOR + at * 3) as u8).collect()
}

fn second_board(memory: &[u8], images: &[Vec<u8>; UNITS], drives: &LentDrives) -> Board {
    let units = std::array::from_fn(|k| Unit {
        there: drives.units[k].present,
        drive: second_drive_of(&drives.units[k]),
        image: images[k].clone(),
    });
    Board { memory: memory.to_vec(), units }
}

impl Ground {
    /// The ground for commands of this shape.
    pub fn new(shape: Shape) -> Ground {
        let (memory, drives) = (chain(shape), shape.drives());
        let images: [Vec<u8>; UNITS] = drives.units.map(image_of);
        let mut walked = [Record::default(); COMMANDS];
        let reply = archive::walk(&memory, &lent(&images), &drives, 0, &mut walked);
        assert_eq!((reply.number, reply.commands), (0, COMMANDS), "the chain is accepted");
        assert!(walked.iter().all(|record| record.code == 0), "every command is a transfer");
        let ranges = walked.iter().map(|record| record.ranges as usize);
        assert!(ranges.clone().all(|ranges| ranges == shape.ranges()), "every list was read");
        let second = second_board(&memory, &images, &drives);
        let mut ground = Ground {
            memory,
            images,
            drives,
            walked,
            areas: std::array::from_fn(|place| shape.area(place)),
            tables: vec![walked; TABLES],
            in_turn: (0..COMMANDS * shape.count).map(|pick| (pick / shape.count) as u8).collect(),
            second,
            second_tables: Vec::new(),
        };
        ground.reset();
        ground
    }

    /// Every table as the walk left it: no step taken.
    pub fn reset(&mut self) {
        self.tables.fill(self.walked);
        self.second_tables = vec![self.walked.map(|record| second_record_of(&record)); TABLES];
    }
}
