//! Times on a machine that others use too: processor time of this thread, and many short turns, taken in rounds so that each
//! of the things compared has its share of quiet and busy moments. The best turn counts; the median says how noisy it was.

use std::os::raw::{c_int, c_long};
use std::time::Duration;

#[repr(C)]
struct TimeSpec {
    seconds: c_long,
    nanoseconds: c_long,
}

/// Linux's `CLOCK_THREAD_CPUTIME_ID`.
const THREAD: c_int = 3;

extern "C" {
    fn clock_gettime(clock: c_int, time: *mut TimeSpec) -> c_int;
}

fn now() -> Duration {
    let mut time = TimeSpec { seconds: 0, nanoseconds: 0 };
    let got = unsafe { clock_gettime(THREAD, &mut time) };
    assert_eq!(got, 0, "no clock for a thread's processor time");
    Duration::new(time.seconds as u64, time.nanoseconds as u32)
}

#[derive(Clone, Copy)]
pub struct Times {
    pub best: f64,
    pub median: f64,
}

impl Times {
    fn of(mut turns: Vec<f64>) -> Self {
        turns.sort_by(f64::total_cmp);
        Times { best: turns[0], median: turns[turns.len() / 2] }
    }

    /// Nanoseconds for each of `count` things.
    pub fn each(self, count: usize) -> Times {
        Times { best: self.best / count as f64, median: self.median / count as f64 }
    }

    /// Without what another thing takes that is part of it.
    pub fn less(self, part: Times) -> Times {
        Times { best: (self.best - part.best).max(0.0), median: (self.median - part.median).max(0.0) }
    }
}

/// How often each thing is timed.
pub fn rounds() -> usize {
    std::env::var("BENCH_ROUNDS").ok().and_then(|n| n.parse().ok()).filter(|&n| n > 0).unwrap_or(25)
}

pub fn clock(work: impl FnOnce()) -> Duration {
    let start = now();
    work();
    now() - start
}

/// Nanoseconds of each of the things. Each makes ready what it needs and says how long the rest took.
pub fn compare<const N: usize>(mut things: [&mut dyn FnMut() -> Duration; N]) -> [Times; N] {
    let mut turns = [const { Vec::new() }; N];
    for _ in 0..rounds() {
        for (thing, turns) in things.iter_mut().zip(&mut turns) {
            turns.push(thing().as_nanos() as f64);
        }
    }
    turns.map(Times::of)
}
