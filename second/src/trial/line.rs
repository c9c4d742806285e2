//! One line of the case format: read from text, written as text.
//! The words and limits are those of the format's own page.

use crate::board::UNITS;
use crate::drive::Drive;
use crate::link_list::MOST_ELEMENTS;
use crate::range::Range;
use crate::record::Record;
use std::fmt;

/// The records in a case's table.
pub const TABLE_RECORDS: u64 = 40;
const MOST_MEMORY: u64 = 66_560;
const MOST_IMAGE: u64 = 16_778_240;
/// The most bytes that one line puts.
pub const MOST_PATCH: usize = 64;
const MOST_PICKS: usize = 256;
const MOST_DECK: usize = 1_100;
const BITS_8: u64 = 0xFF;
const BITS_16: u64 = 0xFFFF;
const BITS_32: u64 = 0xFFFF_FFFF;

/// The fields of a record before its ranges.
pub const FIELDS: u64 = 10;
/// The most that each of these fields may be, in order.
pub const FIELD_MOST: [u64; FIELDS as usize] =
    [BITS_32, BITS_32, BITS_32, BITS_32, BITS_16, BITS_8, BITS_8, BITS_16, BITS_8, BITS_8];

#[derive(Clone, Debug, PartialEq, Eq)]
pub enum Line {
    Case(u64),
    Memory {
        length: u64,
        a: u8,
        b: u8,
    },
    Put {
        address: u64,
        bytes: Vec<u8>,
    },
    Unit(u64),
    Image {
        length: u64,
        a: u8,
        b: u8,
        c: u8,
    },
    Disk {
        offset: u64,
        bytes: Vec<u8>,
    },
    Drive(Drive),
    There(bool),
    /// A record by its ten fields; its ranges are all 0.
    Record {
        place: u64,
        record: Record,
    },
    Range {
        place: u64,
        index: u64,
        range: Range,
    },
    Spoil {
        place: u64,
        field: u64,
        value: u64,
    },
    Commands(u64),
    Lent(u64),
    Walk(u64),
    Pick(u64),
    Picks(Vec<u8>),
    Written(u64),
    Steps,
    Look {
        unit: u64,
        sector: u64,
    },
    Place(u64),
    Fields(u64),
    View(u64),
    LentWalk(u64),
    LentPick(u64),
    Deck(Vec<u8>),
}

impl Line {
    /// A look at a sector of unit 0.
    pub fn look_0(sector: u64) -> Line {
        Line::Look { unit: 0, sector }
    }

    /// Reads one line, without its newline.
    pub fn read(text: &str) -> Result<Line, String> {
        let (word, rest) = match text.split_once(' ') {
            Some((word, rest)) => (word, numbers_in(rest)?),
            None => (text, Vec::new()),
        };
        let read = setting_line(word, &rest)?;
        let read = match read {
            None => calling_line(word, &rest)?,
            found => found,
        };
        read.ok_or_else(|| format!("no line has the word {word:?} with {} numbers", rest.len()))
    }
}

fn numbers_in(rest: &str) -> Result<Vec<u64>, String> {
    let mut numbers = Vec::new();
    for word in rest.split(' ') {
        if word.is_empty() || !word.bytes().all(|byte| byte.is_ascii_digit()) {
            return Err(format!("{word:?} is not a decimal number"));
        }
        numbers.push(word.parse().map_err(|_| format!("{word} is too large"))?);
    }
    Ok(numbers)
}

fn up_to(most: u64, number: u64) -> Result<u64, String> {
    if number > most {
        return Err(format!("{number} is above {most}"));
    }
    Ok(number)
}

fn byte(number: u64) -> Result<u8, String> {
    Ok(up_to(BITS_8, number)? as u8)
}

fn bytes(numbers: &[u64], most: usize) -> Result<Vec<u8>, String> {
    if numbers.len() > most {
        return Err(format!("more than {most} numbers in the list"));
    }
    numbers.iter().map(|number| byte(*number)).collect()
}

/// A line that sets the state, or none if the word and numbers fit no such.
fn setting_line(word: &str, numbers: &[u64]) -> Result<Option<Line>, String> {
    let line = match (word, numbers) {
        ("case", [n]) => Line::Case(*n),
        ("memory", [length, a, b]) => {
            Line::Memory { length: up_to(MOST_MEMORY, *length)?, a: byte(*a)?, b: byte(*b)? }
        }
        ("put", [address, rest @ ..]) if !rest.is_empty() => {
            Line::Put { address: *address, bytes: bytes(rest, MOST_PATCH)? }
        }
        ("unit", [unit]) => Line::Unit(up_to(UNITS - 1, *unit)?),
        ("image", [length, a, b, c]) => Line::Image {
            length: up_to(MOST_IMAGE, *length)?,
            a: byte(*a)?,
            b: byte(*b)?,
            c: byte(*c)?,
        },
        ("disk", [offset, rest @ ..]) if !rest.is_empty() => {
            Line::Disk { offset: *offset, bytes: bytes(rest, MOST_PATCH)? }
        }
        ("drive", [cylinder, head, sector, last, protected]) => Line::Drive(Drive {
            max_cylinder: up_to(BITS_16, *cylinder)? as u16,
            max_head: byte(*head)?,
            max_sector: byte(*sector)?,
            last_head_max_sector: byte(*last)?,
            protected: up_to(1, *protected)? == 1,
        }),
        ("there", [there]) => Line::There(up_to(1, *there)? == 1),
        _ => return table_line(word, numbers),
    };
    Ok(Some(line))
}

/// A line that sets the table, or none if the word and numbers fit no such.
fn table_line(word: &str, numbers: &[u64]) -> Result<Option<Line>, String> {
    let line = match (word, numbers) {
        ("record", [place, fields @ ..]) if fields.len() as u64 == FIELDS => {
            Line::Record { place: up_to(TABLE_RECORDS - 1, *place)?, record: record(fields)? }
        }
        ("range", [place, index, address, length]) => Line::Range {
            place: up_to(TABLE_RECORDS - 1, *place)?,
            index: up_to(MOST_ELEMENTS - 1, *index)?,
            range: Range {
                address: up_to(BITS_32, *address)? as u32,
                length: up_to(BITS_16, *length)? as u32,
            },
        },
        ("spoil", [place, field, value]) => Line::Spoil {
            place: up_to(TABLE_RECORDS - 1, *place)?,
            field: up_to(FIELDS - 1, *field)?,
            value: up_to(FIELD_MOST[*field as usize], *value)?,
        },
        ("commands", [n]) => Line::Commands(up_to(BITS_32, *n)?),
        ("lent", [length]) => Line::Lent(up_to(TABLE_RECORDS, *length)?),
        _ => return Ok(None),
    };
    Ok(Some(line))
}

fn record(fields: &[u64]) -> Result<Record, String> {
    let mut record = Record::default();
    for (field, value) in fields.iter().enumerate() {
        set_field(&mut record, field as u64, up_to(FIELD_MOST[field], *value)?);
    }
    Ok(record)
}

/// Sets one of the ten fields of a record, by its number in the format.
pub fn set_field(record: &mut Record, field: u64, value: u64) {
    match field {
        0 => record.iopb = value as u32,
        1 => record.data = value as u32,
        2 => record.sector = value as u32,
        3 => record.taken = value as u32,
        4 => record.count = value as u16,
        5 => record.byte0 = value as u8,
        6 => record.code = value as u8,
        7 => record.ranges = value as u16,
        8 => record.fitted = value as u8,
        9 => record.unit = value as u8,
        _ => unreachable!("the format has fields 0 to 9"),
    }
}

/// One of the ten fields of a record, by its number in the format.
pub fn field_of(record: &Record, field: u64) -> u64 {
    match field {
        0 => u64::from(record.iopb),
        1 => u64::from(record.data),
        2 => u64::from(record.sector),
        3 => u64::from(record.taken),
        4 => u64::from(record.count),
        5 => u64::from(record.byte0),
        6 => u64::from(record.code),
        7 => u64::from(record.ranges),
        8 => u64::from(record.fitted),
        9 => u64::from(record.unit),
        _ => unreachable!("the format has fields 0 to 9"),
    }
}

/// A line that calls, or none if the word and numbers fit no such.
fn calling_line(word: &str, numbers: &[u64]) -> Result<Option<Line>, String> {
    let line = match (word, numbers) {
        ("walk", [start]) => Line::Walk(up_to(BITS_32, *start)?),
        ("pick", [place]) => Line::Pick(up_to(BITS_32, *place)?),
        ("picks", places) => Line::Picks(bytes(places, MOST_PICKS)?),
        ("written", [budget]) => Line::Written(*budget),
        ("steps", []) => Line::Steps,
        ("look", [unit, sector]) => {
            Line::Look { unit: up_to(BITS_8, *unit)?, sector: up_to(BITS_32, *sector)? }
        }
        ("place", [sector]) => Line::Place(up_to(BITS_32, *sector)?),
        ("fields", [address]) => Line::Fields(up_to(BITS_32, *address)?),
        ("view", [address]) => Line::View(up_to(BITS_32, *address)?),
        ("lentwalk", [start]) => Line::LentWalk(up_to(BITS_32, *start)?),
        ("lentpick", [place]) => Line::LentPick(up_to(BITS_32, *place)?),
        ("deck", deck) => Line::Deck(bytes(deck, MOST_DECK)?),
        _ => return Ok(None),
    };
    Ok(Some(line))
}

fn list(out: &mut fmt::Formatter<'_>, bytes: &[u8]) -> fmt::Result {
    for byte in bytes {
        write!(out, " {byte}")?;
    }
    Ok(())
}

impl fmt::Display for Line {
    fn fmt(&self, out: &mut fmt::Formatter<'_>) -> fmt::Result {
        match self {
            Line::Case(n) => write!(out, "case {n}"),
            Line::Memory { length, a, b } => write!(out, "memory {length} {a} {b}"),
            Line::Put { address, bytes } => {
                write!(out, "put {address}")?;
                list(out, bytes)
            }
            Line::Unit(unit) => write!(out, "unit {unit}"),
            Line::Image { length, a, b, c } => write!(out, "image {length} {a} {b} {c}"),
            Line::Disk { offset, bytes } => {
                write!(out, "disk {offset}")?;
                list(out, bytes)
            }
            Line::Drive(drive) => write_drive(out, drive),
            Line::There(there) => write!(out, "there {}", u8::from(*there)),
            Line::Record { place, record } => {
                write!(out, "record {place}")?;
                (0..FIELDS).try_for_each(|field| write!(out, " {}", field_of(record, field)))
            }
            Line::Range { place, index, range: Range { address, length } } => {
                write!(out, "range {place} {index} {address} {length}")
            }
            Line::Spoil { place, field, value } => write!(out, "spoil {place} {field} {value}"),
            Line::Commands(n) => write!(out, "commands {n}"),
            Line::Lent(length) => write!(out, "lent {length}"),
            calling => write_calling(out, calling),
        }
    }
}

fn write_drive(out: &mut fmt::Formatter<'_>, drive: &Drive) -> fmt::Result {
    let Drive { max_cylinder, max_head, max_sector, last_head_max_sector, protected } = drive;
    write!(out, "drive {max_cylinder} {max_head} {max_sector} {last_head_max_sector}")?;
    write!(out, " {}", u8::from(*protected))
}

fn write_calling(out: &mut fmt::Formatter<'_>, line: &Line) -> fmt::Result {
    match line {
        Line::Walk(start) => write!(out, "walk {start}"),
        Line::Pick(place) => write!(out, "pick {place}"),
        Line::Picks(places) => {
            write!(out, "picks")?;
            list(out, places)
        }
        Line::Written(budget) => write!(out, "written {budget}"),
        Line::Steps => write!(out, "steps"),
        Line::Look { unit, sector } => write!(out, "look {unit} {sector}"),
        Line::Place(sector) => write!(out, "place {sector}"),
        Line::Fields(address) => write!(out, "fields {address}"),
        Line::View(address) => write!(out, "view {address}"),
        Line::LentWalk(start) => write!(out, "lentwalk {start}"),
        Line::LentPick(place) => write!(out, "lentpick {place}"),
        Line::Deck(deck) => {
            write!(out, "deck")?;
            list(out, deck)
        }
        _ => unreachable!("the setting lines are written above"),
    }
}
