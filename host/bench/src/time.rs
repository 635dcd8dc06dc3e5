//! Time as a ratio: both sides take turns in one process.

use std::hint::black_box;
use std::time::{Duration, Instant};

use crate::calls::{thunk, Bed, Side, Thunk};
use crate::groups::{Case, Group};

/// Turns of both sides, and the least number of calls that a turn makes.
const TURNS: usize = 400;
const CALLS: usize = 2_000;

/// Quartiles of one side's time divided by the second program's, turn by turn.
pub struct Ratio {
    pub lower: f64,
    pub median: f64,
    pub upper: f64,
}

impl Ratio {
    /// The quartiles of all turns.
    pub fn of(mut ratios: Vec<f64>) -> Self {
        ratios.sort_by(f64::total_cmp);
        let quartile = |quarters| ratios[ratios.len() * quarters / 4];
        Self {
            lower: quartile(1),
            median: quartile(2),
            upper: quartile(3),
        }
    }
}

/// Measures some calls of a group, made one after the other.
pub fn ratio(group: &Group, cases: &[Case]) -> Ratio {
    let thunks = |side| -> Vec<Thunk> { cases.iter().map(|case| thunk(side, case.request.entry)).collect() };
    let (archive, second) = (thunks(Side::Archive), thunks(Side::Second));
    let mut bed = group.bed();
    let ratios = (0..TURNS)
        .map(|turn| {
            // Who begins changes from turn to turn.
            let (one, other) = if turn % 2 == 0 {
                (&archive, &second)
            } else {
                (&second, &archive)
            };
            let (one, other) = (turn_time(one, cases, &mut bed), turn_time(other, cases, &mut bed));
            let (archive, second) = if turn % 2 == 0 { (one, other) } else { (other, one) };
            archive.as_secs_f64() / second.as_secs_f64()
        })
        .collect();
    Ratio::of(ratios)
}

/// The time of one turn.
fn turn_time(thunks: &[Thunk], cases: &[Case], bed: &mut Bed) -> Duration {
    let start = Instant::now();
    for _ in 0..CALLS.div_ceil(cases.len()) {
        for (thunk, case) in thunks.iter().zip(cases) {
            black_box(thunk)(bed, &case.request);
        }
    }
    start.elapsed()
}
