//! The lines of a case while it is being made. Each line is played as it is
//! said, so that a maker can see the table and aim at its edges.

use crate::bench::BENCH_MEMORY;
use crate::board::SECTOR_BYTES;
use crate::drive::Drive;
use crate::link_list::ELEMENT_BYTES;
use crate::makers::block::Block;
use crate::range::Range;
use crate::record::Record;
use crate::trial::answer::Answer;
use crate::trial::line::{Line, MOST_PATCH};
use crate::trial::state::State;

#[derive(Clone, Debug, Default)]
pub struct Script {
    pub lines: Vec<Line>,
    pub state: State,
    cases: u64,
}

/// The eight bytes of an element of a link list.
pub fn element_bytes(range: &Range) -> [u8; ELEMENT_BYTES as usize] {
    let [_, _, high, low] = range.length.to_be_bytes();
    let [a, b, c, d] = range.address.to_be_bytes();
    [high, low, 0xE5, 0xD6, a, b, c, d]
}

impl Script {
    /// Says one line, and gives what it answers.
    pub fn say(&mut self, line: Line) -> Answer {
        let answer = self.state.play(&line).expect("a maker keeps its patches inside");
        self.lines.push(line);
        answer
    }

    pub fn say_all(&mut self, lines: impl IntoIterator<Item = Line>) {
        for line in lines {
            self.say(line);
        }
    }

    /// The next case, numbered from 0.
    pub fn case(&mut self) {
        self.say(Line::Case(self.cases));
        self.cases += 1;
    }

    /// A drive whose last head is like the others.
    pub fn drive(&mut self, max_cylinder: u16, max_head: u8, max_sector: u8, protected: bool) {
        let drive = Drive::with_equal_heads(max_cylinder, max_head, max_sector);
        self.say(Line::Drive(Drive { protected, ..drive }));
    }

    /// Chooses a unit and makes it there, with a drive and an image.
    pub fn give(&mut self, unit: u64, drive: Drive, image: Line) {
        self.say_all([Line::Unit(unit), Line::Drive(drive), image, Line::There(true)]);
    }

    /// Chooses a unit and makes it absent; what is lent for it stays.
    pub fn take_away(&mut self, unit: u64) {
        self.say_all([Line::Unit(unit), Line::There(false)]);
    }

    /// The drive and memory of the bench.
    pub fn bench_ground(&mut self, protected: bool) {
        self.drive(1, 1, 7, protected);
        self.say(Line::Memory { length: BENCH_MEMORY as u64, a: 0, b: 0 });
        self.say(Line::Image { length: 32 * SECTOR_BYTES, a: 0, b: 1, c: 0 });
    }

    /// A new case on the drive and memory of the bench.
    pub fn bench_case(&mut self) {
        self.case();
        self.bench_ground(false);
    }

    pub fn block(&mut self, address: u64, block: Block) {
        self.say(Line::Put { address, bytes: block.bytes.to_vec() });
    }

    /// Sets a record, and then those of its ranges that are not 0.
    pub fn record(&mut self, place: u64, record: Record) {
        let listless = Record { list: Record::default().list, ..record };
        self.say(Line::Record { place, record: listless });
        for (index, range) in record.list.into_iter().enumerate() {
            if range != Range::default() {
                self.say(Line::Range { place, index: index as u64, range });
            }
        }
    }

    /// Puts a link list in memory. The two bytes of an element that the rules
    /// ignore get other values, so that a wrong offset shows.
    pub fn link_list(&mut self, address: u64, list: &[Range]) {
        let bytes: Vec<u8> = list.iter().flat_map(element_bytes).collect();
        self.put(address, &bytes);
    }

    /// Puts any number of bytes in memory, in as many lines as it takes.
    pub fn put(&mut self, address: u64, bytes: &[u8]) {
        for (k, part) in bytes.chunks(MOST_PATCH).enumerate() {
            let address = address + (MOST_PATCH * k) as u64;
            self.say(Line::Put { address, bytes: part.to_vec() });
        }
    }

    pub fn spoil(&mut self, place: u64, field: u64, value: u64) {
        self.say(Line::Spoil { place, field, value });
    }

    pub fn picks(&mut self, places: &[u8]) {
        self.say(Line::Picks(places.to_vec()));
    }

    /// All the lines as the text of the format.
    pub fn text(&self) -> String {
        self.lines.iter().map(|line| format!("{line}\n")).collect()
    }
}
