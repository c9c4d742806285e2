//! One call of a board, and its reply, in a form that both sides share.

use crate::declared::{Ran, Walked};
use second::board::{Board, Unit};
use second::place::Place;
use second::record::MOST_COMMANDS;
use std::fmt;

/// A call. `lent` is the length of the table that is lent for it. A place is asked of the drive that is
/// lent for a unit, there or not.
#[derive(Clone, Debug, PartialEq, Eq)]
pub enum Call {
    Walk { start: u32, lent: usize },
    Pick { place: usize, commands: usize, lent: usize },
    Picks { picks: Vec<u8>, commands: usize, lent: usize },
    Written { budget: u64, commands: usize, lent: usize },
    Look { unit: u8, sector: u32 },
    Place { unit: usize, sector: u32 },
    View { at: u32 },
}

/// What a call gives.
#[derive(Clone, Debug, PartialEq, Eq)]
pub enum Reply {
    Walked(Walked),
    Picked(u8),
    Ran(Ran),
    /// The number, and where the part of the unit's image lies.
    Looked {
        number: u8,
        at: usize,
        length: usize,
    },
    /// The number, and the place in the second program's words, which are wide enough for any.
    Placed {
        number: u8,
        place: Place,
    },
    /// The number of the viewer's making, and its fields in the order of docs/CASES.md.
    Viewed {
        number: u8,
        fields: [u64; 18],
    },
}

impl Call {
    /// The word that the counts have for it.
    pub fn word(&self) -> &'static str {
        match self {
            Call::Walk { .. } => "walk",
            Call::Pick { .. } => "pick",
            Call::Picks { .. } => "run by picks",
            Call::Written { .. } => "run as written",
            Call::Look { .. } => "look",
            Call::Place { .. } => "place",
            Call::View { .. } => "view",
        }
    }

    /// Whether all that it gives 1 for is right, but for the drives and images; none if it does not
    /// test an image.
    pub fn others_right(&self, ground: &Board) -> Option<bool> {
        match self {
            Call::Walk { lent, .. }
            | Call::Pick { lent, .. }
            | Call::Picks { lent, .. }
            | Call::Written { lent, .. } => {
                Some(*lent as u64 >= MOST_COMMANDS && ground.memory_right())
            }
            Call::Look { .. } => Some(true),
            Call::Place { .. } | Call::View { .. } => None,
        }
    }

    /// The one unit for whose drive and image alone it gives 1, if there is one.
    pub fn unit_alone_wrong<'a>(&self, ground: &'a Board) -> Option<(usize, &'a Unit)> {
        let mut wrong =
            ground.units.iter().enumerate().filter(|(_, u)| u.there && !u.image_right());
        match (self.others_right(ground), wrong.next(), wrong.next()) {
            (Some(true), Some(alone), None) => Some(alone),
            _ => None,
        }
    }

    /// The number of commands, of a call that takes steps.
    pub fn commands(&self) -> Option<usize> {
        match self {
            Call::Pick { commands, .. }
            | Call::Picks { commands, .. }
            | Call::Written { commands, .. } => Some(*commands),
            _ => None,
        }
    }
}

impl Reply {
    pub fn number(&self) -> u8 {
        match self {
            Reply::Walked(walked) => walked.number,
            Reply::Picked(number) => *number,
            Reply::Ran(ran) => ran.number,
            Reply::Looked { number, .. }
            | Reply::Placed { number, .. }
            | Reply::Viewed { number, .. } => *number,
        }
    }
}

impl fmt::Display for Call {
    fn fmt(&self, out: &mut fmt::Formatter<'_>) -> fmt::Result {
        match self {
            Call::Walk { start, lent } => {
                write!(out, "walk from {start}, with {lent} records lent")
            }
            Call::Pick { place, commands, lent } => {
                write!(out, "pick {place} of {commands} commands, with {lent} records lent")
            }
            Call::Picks { picks, commands, lent } => {
                write!(out, "picks {picks:?} of {commands} commands, with {lent} records lent")
            }
            Call::Written { budget, commands, lent } => write!(
                out,
                "run as written, budget {budget}, of {commands} commands, with {lent} records lent"
            ),
            Call::Look { unit, sector } => write!(out, "look at sector {sector} of unit {unit}"),
            Call::Place { unit, sector } => {
                write!(out, "place of sector {sector} on the drive lent for unit {unit}")
            }
            Call::View { at } => write!(out, "view at {at}"),
        }
    }
}

impl fmt::Display for Reply {
    fn fmt(&self, out: &mut fmt::Formatter<'_>) -> fmt::Result {
        match self {
            Reply::Walked(walked) => {
                write!(out, "number {}, {} commands", walked.number, walked.commands)
            }
            Reply::Picked(number) => write!(out, "number {number}"),
            Reply::Ran(ran) => write!(
                out,
                "number {}, {} steps, {} refused, {}",
                ran.number,
                ran.steps,
                ran.refused,
                if ran.finished { "finished" } else { "not finished" }
            ),
            Reply::Looked { number, at, length } => {
                write!(out, "number {number}, {length} bytes at {at}")
            }
            Reply::Placed { number, place: Place { cylinder, head, sector } } => {
                write!(out, "number {number}, cylinder {cylinder}, head {head}, sector {sector}")
            }
            Reply::Viewed { number, fields } => write!(out, "number {number}, fields {fields:?}"),
        }
    }
}
