// The median times of two calls that are made in turns.
// Rests on lines.rs.

use std::hint::black_box;
use std::time::Instant;

use crate::lines::Call;

/// What one repetition takes at least, and all repetitions of a line about, in nanoseconds.
const REPETITION: f64 = 20_000.0;
const LINE: f64 = 600_000_000.0;
const LEAST_REPETITIONS: usize = 5;
const MOST_REPETITIONS: usize = 2_001;

/// In nanoseconds; in every repetition each call has its turn.
pub fn medians(calls: &mut [Call; 2]) -> [f64; 2] {
    let once = calls.each_mut().map(|call| time(1, call));
    let times = once.map(|once| (REPETITION / once).ceil() as usize);
    let turn: f64 = once
        .iter()
        .zip(times)
        .map(|(once, n)| once * n as f64)
        .sum();
    let repetitions = ((LINE / turn) as usize).clamp(LEAST_REPETITIONS, MOST_REPETITIONS);
    let mut found = [vec![], vec![]];
    for _ in 0..repetitions {
        for ((call, times), found) in calls.iter_mut().zip(times).zip(&mut found) {
            found.push(time(times, call));
        }
    }
    found.map(median)
}

/// Nanoseconds of one call, of so many.
fn time(times: usize, call: &mut Call) -> f64 {
    let begin = Instant::now();
    for _ in 0..times {
        black_box(call());
    }
    begin.elapsed().as_nanos().max(1) as f64 / times as f64
}

fn median(mut times: Vec<f64>) -> f64 {
    times.sort_by(f64::total_cmp);
    times[times.len() / 2]
}
