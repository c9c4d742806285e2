//! What a line of a case answers, and the text that is printed for it. The
//! answer is kept apart from its text, so that answers can be counted.

use crate::bench::BenchReply;
use crate::iopb::Fields;
use crate::place::Place;
use crate::run::{PicksReply, WrittenReply};
use crate::trial::digest::{digest, digest_end_to_end, digest_of_records};
use crate::trial::state::State;
use crate::walk::WalkReply;

/// `word` tells the lent form of a call from the other.
#[derive(Clone, Debug, PartialEq, Eq)]
pub enum Answer {
    /// The line set something, and prints nothing.
    Quiet,
    Case(u64),
    Walk {
        word: &'static str,
        reply: WalkReply,
    },
    Pick {
        word: &'static str,
        number: u8,
    },
    Picks(PicksReply),
    Written(WrittenReply),
    Steps(u64),
    Look {
        number: u8,
        part: Vec<u8>,
    },
    Place {
        number: u8,
        place: Place,
    },
    Fields(Fields),
    View {
        number: u8,
        fields: Fields,
    },
    Deck(BenchReply),
}

impl Answer {
    /// The lines printed, each without its newline; the state is that after
    /// the call, since its digests are printed.
    pub fn lines(&self, state: &State) -> Vec<String> {
        let line = match self {
            Answer::Quiet => return Vec::new(),
            Answer::Deck(reply) => return reply.lines(),
            Answer::Case(n) => format!("case {n}"),
            Answer::Walk { word, reply } => {
                format!("{word} {} {} {}", reply.number, reply.commands, digests(state))
            }
            Answer::Pick { word, number } => format!("{word} {number} {}", digests(state)),
            Answer::Picks(reply) => {
                let PicksReply { number, steps, refused, finished, .. } = reply;
                let finished = u8::from(*finished);
                format!("picks {number} {steps} {refused} {finished} {}", digests(state))
            }
            Answer::Written(WrittenReply { number, steps, finished }) => {
                format!("written {number} {steps} {} {}", u8::from(*finished), digests(state))
            }
            Answer::Steps(steps) => format!("steps {steps}"),
            Answer::Look { number, part } => {
                format!("look {number} {} {:08x}", part.len(), digest(part))
            }
            Answer::Place { number, place: Place { cylinder, head, sector } } => {
                format!("place {number} {cylinder} {head} {sector}")
            }
            Answer::Fields(fields) => format!("fields{}", in_decimal(fields)),
            Answer::View { number, fields } => format!("view {number}{}", in_decimal(fields)),
        };
        vec![line]
    }
}

/// The digests M, I and T of memory, of all four images, those of absent units
/// among them, and of all forty records.
fn digests(state: &State) -> String {
    let memory = digest(&state.board.memory);
    let image = digest_end_to_end(state.board.units.iter().map(|unit| unit.image.as_slice()));
    let table = digest_of_records(&state.table);
    format!("{memory:08x} {image:08x} {table:08x}")
}

fn in_decimal(fields: &Fields) -> String {
    fields.in_order().iter().map(|field| format!(" {field}")).collect()
}
