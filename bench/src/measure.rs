//! Timing: the sides take turns in many short repetitions, and the fastest one of each counts.
#![forbid(unsafe_code)]

use std::time::{Duration, Instant};

/// One side of a comparison: does its work a few times, and says the nanoseconds that one time took.
pub type Side<'a> = &'a mut dyn FnMut() -> f64;

/// How long a repetition should take: short enough to fall between interruptions, long against the clock's grain.
const REPETITION: Duration = Duration::from_micros(30);
/// Rounds that are made even where the time is used up.
const LEAST_ROUNDS: usize = 2;
/// How often everything is measured anew, so that a busy spell of the machine falls on no row alone.
pub const PASSES: usize = 3;

/// The fastest nanoseconds of each side within the given time, A, B, A, B and so on.
pub fn fastest(time: Duration, sides: &mut [Side<'_>]) -> Vec<f64> {
    let start = Instant::now();
    let mut best = vec![f64::INFINITY; sides.len()];
    let mut rounds = 0;
    while rounds < LEAST_ROUNDS || start.elapsed() < time {
        for (best, side) in best.iter_mut().zip(sides.iter_mut()) {
            *best = side().min(*best);
        }
        rounds += 1;
    }
    best
}

/// The nanoseconds of one call.
pub fn once(work: impl FnOnce()) -> f64 {
    let start = Instant::now();
    work();
    start.elapsed().as_nanos() as f64
}

/// A side that repeats its work until a repetition is long enough.
pub fn repeated(mut work: impl FnMut()) -> impl FnMut() -> f64 {
    let mut times = 0;
    move || {
        if times == 0 {
            let first = once(&mut work).max(1.0);
            times = (REPETITION.as_nanos() as f64 / first).ceil() as usize;
        }
        let all = once(|| (0..times).for_each(|_| work()));
        all / times as f64
    }
}
