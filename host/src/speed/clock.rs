//! The clock. All sides of a comparison are timed in turn, batch by batch, on the same ground, so
//! that what else the machine does meets them alike.

use crate::speed::ground::{Ground, Shape};
use std::time::{Duration, Instant};

/// One side: its name, one batch of its work, and how many units a batch has.
pub struct Side {
    pub name: &'static str,
    pub batch: fn(&mut Ground),
    pub units: usize,
}

pub const ROUNDS: usize = 45;
/// How long one side is timed in one round.
const ROUND: Duration = Duration::from_millis(8);
/// A slow side, as the second program is, gets at least this many batches a round.
const FEWEST: usize = 3;

/// Nanoseconds for a unit of a side: the fastest batch of each round.
pub struct Times(Vec<f64>);

impl Times {
    /// The median of the rounds.
    pub fn median(&self) -> f64 {
        at_part(&self.0, 0.5)
    }

    /// How much longer than the other this side takes: the median of the rounds' own ratios, since
    /// what else the machine does in a round meets both.
    pub fn ratio(&self, other: &Times) -> f64 {
        at_part(&self.ratios(other), 0.5)
    }

    /// How far the middle half of those ratios lies apart, as a part of the median.
    pub fn spread(&self, other: &Times) -> f64 {
        let ratios = self.ratios(other);
        (at_part(&ratios, 0.75) - at_part(&ratios, 0.25)) / at_part(&ratios, 0.5)
    }

    fn ratios(&self, other: &Times) -> Vec<f64> {
        self.0.iter().zip(&other.0).map(|(own, other)| own / other).collect()
    }
}

/// The value that so large a part of all is below.
fn at_part(values: &[f64], part: f64) -> f64 {
    let mut sorted = values.to_vec();
    sorted.sort_by(f64::total_cmp);
    sorted[((sorted.len() - 1) as f64 * part).round() as usize]
}

/// Times all sides, in rounds. Each round has a ground of its own, and all of them stay to the end,
/// so that each lies elsewhere: with one ground for all, the ratio at 128 sectors a command moved by
/// a twentieth from one run of the program to the next.
pub fn measure(shape: Shape, sides: &[Side]) -> Vec<Times> {
    let mut times: Vec<Times> = sides.iter().map(|_| Times(Vec::new())).collect();
    let mut grounds: Vec<Ground> = Vec::new();
    for _ in 0..ROUNDS {
        let mut ground = Ground::new(shape);
        for (time, fastest) in times.iter_mut().zip(round(&mut ground, sides)) {
            time.0.push(fastest);
        }
        grounds.push(ground);
    }
    times
}

/// The fastest batch of each side in one round, for a unit. The sides take turns.
fn round(ground: &mut Ground, sides: &[Side]) -> Vec<f64> {
    let mut fastest = vec![f64::INFINITY; sides.len()];
    let mut spent = vec![Duration::ZERO; sides.len()];
    let mut batches = 0;
    loop {
        let mut open = false;
        for (k, side) in sides.iter().enumerate() {
            if spent[k] >= ROUND && batches >= FEWEST {
                continue;
            }
            open = true;
            ground.reset();
            let start = Instant::now();
            (side.batch)(ground);
            let time = start.elapsed();
            spent[k] += time;
            fastest[k] = fastest[k].min(time.as_secs_f64() * 1e9 / side.units as f64);
        }
        batches += 1;
        if !open {
            return fastest;
        }
    }
}
