//! Times in nanoseconds: the best of several runs counts. The same call does the same work every time, and what a shared
//! machine adds to it is only ever more.

use std::hint::black_box;
use std::time::Instant;

/// What the call takes, each time on a thing made anew, less what reading the clock takes.
pub fn best<T>(runs: usize, make: impl Fn() -> T, call: impl Fn(&mut T)) -> u64 {
    let took = |_| {
        let mut thing = make();
        let begin = Instant::now();
        call(black_box(&mut thing));
        begin.elapsed().as_nanos() as u64
    };
    let least = (0..runs).map(took).min();
    least.unwrap_or(0).saturating_sub(clock())
}

/// What reading the clock takes by itself.
pub fn clock() -> u64 {
    let pair = |_| Instant::now().elapsed().as_nanos() as u64;
    (0..1_000).map(pair).min().unwrap_or(0)
}

/// In microseconds, for people.
pub fn micros(nanoseconds: u64) -> String {
    format!("{:.1}", nanoseconds as f64 / 1_000.0)
}
