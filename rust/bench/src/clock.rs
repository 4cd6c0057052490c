//! Interleaved samples and their medians.

use std::time::Instant;

/// Samples of each side of a row, where nothing else is said.
pub const SAMPLES: usize = 101;

/// About how long one sample takes, where one call does not take longer.
const SAMPLE_MICROS: u128 = 500;

/// Something whose time is taken, for a turn of a row.
pub type Side<'r> = &'r dyn Fn(usize);

/// Nanoseconds of a call, for each side: the median of so many samples.
pub fn medians<const N: usize>(samples: usize, sides: [Side; N]) -> [f64; N] {
    let turns = sides.map(turns);
    let mut taken = [const { Vec::new() }; N];
    for round in 0..samples {
        // Each side is the first of a round as often as another.
        for step in 0..N {
            let side = (round + step) % N;
            taken[side].push(sample(sides[side], turns[side], round));
        }
    }
    taken.map(median)
}

/// How many turns make a sample long enough.
fn turns(side: Side) -> usize {
    let mut turns = 1;
    loop {
        let started = Instant::now();
        sample(side, turns, 0);
        if started.elapsed().as_micros() >= SAMPLE_MICROS {
            return turns;
        }
        turns *= 2;
    }
}

/// Nanoseconds of a call over so many turns.
fn sample(side: Side, turns: usize, round: usize) -> f64 {
    let started = Instant::now();
    for turn in 0..turns {
        side(round * turns + turn);
    }
    started.elapsed().as_nanos() as f64 / turns as f64
}

fn median(mut samples: Vec<f64>) -> f64 {
    samples.sort_by(f64::total_cmp);
    samples[samples.len() / 2]
}
