//! Nanoseconds of a call, the contestants by turns.

use crate::cases::Case;
use crate::contestants::{measured, Contestant};
use std::time::Instant;

/// How many copies of a state a turn is played on, and how many turns there
/// are; the first ones warm up and do not count.
const COPIES: usize = 64;
const TURNS: usize = 60;
const WARM_UP: usize = 10;

/// Of the turns, in nanoseconds for the case's calls.
#[derive(Clone, Copy)]
pub struct Times {
    pub best: f64,
    pub median: f64,
}

/// The times of each contestant, in the order of `Contestant::ALL`.
pub fn of(case: &Case, image: &[u8]) -> [Times; Contestant::COUNT] {
    let mut turns: [Vec<f64>; Contestant::COUNT] = Default::default();
    for turn in 0..TURNS {
        for (contestant, times) in Contestant::ALL.into_iter().zip(&mut turns) {
            let time = one_turn(contestant, case, image);
            if turn >= WARM_UP {
                times.push(time);
            }
        }
    }
    turns.map(summary)
}

fn one_turn(contestant: Contestant, case: &Case, image: &[u8]) -> f64 {
    let mut prepared = contestant.prepare(case, image, COPIES);
    let begin = Instant::now();
    measured(prepared.as_mut());
    begin.elapsed().as_nanos() as f64 / COPIES as f64
}

fn summary(mut times: Vec<f64>) -> Times {
    times.sort_by(f64::total_cmp);
    Times {
        best: times[0],
        median: times[times.len() / 2],
    }
}
