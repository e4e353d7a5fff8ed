//! Times the two sides in rounds: in each round every operation has a few short slots for ours and for the original's, in turn,
//! so that what slows the machine down slows both. The fastest slot of each side counts: it was interrupted least.

use crate::calls::Room;
use crate::operations::{Operation, SIDES};
use std::time::{Duration, Instant};

/// How many slots a side has in a round.
const TURNS: usize = 6;
/// How often a slot is tried before all rounds: one that was interrupted lasts long with few passes.
const TRIES: usize = 3;

/// How long is timed.
#[derive(Clone, Copy)]
pub struct Plan {
    pub rounds: usize,
    /// How long a slot lasts at least, once it was measured how many passes that takes.
    pub slot: Duration,
}

/// What one operation took: in nanoseconds a unit, in each round.
pub struct Times {
    pub sides: [Vec<f64>; 2],
}

/// The middle, the lowest and the highest of some numbers.
pub struct Spread {
    pub median: f64,
    pub lowest: f64,
    pub highest: f64,
}

impl Times {
    /// What a unit took on one side, in the middle of the rounds.
    pub fn median(&self, side: usize) -> f64 {
        spread(self.sides[side].clone()).median
    }

    /// How many times as long ours took as the original's in the same round.
    pub fn ratio(&self) -> Spread {
        let [ours, original] = &self.sides;
        spread(ours.iter().zip(original).map(|(a, b)| a / b).collect())
    }
}

/// The spread of at least one number.
fn spread(mut numbers: Vec<f64>) -> Spread {
    numbers.sort_by(f64::total_cmp);
    Spread {
        median: numbers[numbers.len() / 2],
        lowest: numbers[0],
        highest: numbers[numbers.len() - 1],
    }
}

/// The times of each operation.
pub fn time(operations: &[Operation], plan: Plan) -> Vec<Times> {
    let mut room = Room::new();
    let passes: Vec<[u32; 2]> = operations
        .iter()
        .map(|operation| [0, 1].map(|side| passes(operation, side, plan.slot, &mut room)))
        .collect();
    let mut times: Vec<Times> = operations
        .iter()
        .map(|_| Times {
            sides: [Vec::new(), Vec::new()],
        })
        .collect();
    for _ in 0..plan.rounds {
        for ((operation, passes), times) in operations.iter().zip(&passes).zip(&mut times) {
            let fastest = round(operation, *passes, &mut room);
            for side in 0..SIDES.len() {
                let units = f64::from(passes[side]) * operation.units() as f64;
                times.sides[side].push(fastest[side].as_nanos() as f64 / units);
            }
        }
    }
    times
}

/// The fastest slot of each side, of some in turn; the side that is first changes.
fn round(operation: &Operation, passes: [u32; 2], room: &mut Room) -> [Duration; 2] {
    let mut fastest = [Duration::MAX; 2];
    for turn in 0..TURNS {
        let first = turn % 2;
        for side in [first, 1 - first] {
            let lasted = slot(operation, side, passes[side], room);
            fastest[side] = fastest[side].min(lasted);
        }
    }
    fastest
}

/// How many passes of a side a slot takes.
fn passes(operation: &Operation, side: usize, least: Duration, room: &mut Room) -> u32 {
    let mut passes = 1;
    while (0..TRIES).any(|_| slot(operation, side, passes, room) < least) {
        passes *= 2;
    }
    passes
}

/// How long some passes of a side take.
fn slot(operation: &Operation, side: usize, passes: u32, room: &mut Room) -> Duration {
    let expected = operation.pass(side, room);
    let start = Instant::now();
    for _ in 0..passes {
        assert_eq!(operation.pass(side, room), expected, "{}", operation.name);
    }
    start.elapsed()
}
