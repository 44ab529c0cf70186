//! Times of two sides, taken by turns. A time is that of the thread on its processor, so that what
//! else the machine does is left out.

use std::ffi::c_int;
use std::fmt;

#[repr(C)]
struct TimeSpec {
    seconds: i64,
    nanoseconds: i64,
}

extern "C" {
    fn clock_gettime(clock: c_int, time: *mut TimeSpec) -> c_int;
}

/// Linux's CLOCK_THREAD_CPUTIME_ID.
const THREAD_TIME: c_int = 3;

/// Seconds that this thread has run.
pub fn now() -> f64 {
    let mut time = TimeSpec {
        seconds: 0,
        nanoseconds: 0,
    };
    // SAFETY: the pointer is to a `timespec` of 64-bit Linux.
    let failed = unsafe { clock_gettime(THREAD_TIME, &mut time) };
    assert_eq!(failed, 0, "the clock is there");
    time.seconds as f64 + time.nanoseconds as f64 * 1e-9
}

/// A sample lasts about this long, so that the clock's own steps do not matter.
const SAMPLE: f64 = 2e-3;
const MOST_RUNS: f64 = 2_000.0;

/// Seconds a run, by turns: the library's and the Rust's of each turn.
pub struct Samples(Vec<(f64, f64)>);

/// Library to Rust, over turns.
pub struct Ratio {
    median: f64,
    least: f64,
    greatest: f64,
}

fn seconds(runs: usize, work: &mut impl FnMut()) -> f64 {
    let start = now();
    for _ in 0..runs {
        work();
    }
    (now() - start) / runs as f64
}

/// How many runs make a sample.
pub fn runs(work: &mut impl FnMut()) -> usize {
    seconds(2, work);
    let once = seconds(3, work).max(1e-9);
    (SAMPLE / once).clamp(1.0, MOST_RUNS) as usize
}

pub fn median(mut times: Vec<f64>) -> f64 {
    times.sort_unstable_by(f64::total_cmp);
    times[times.len() / 2]
}

/// The median time of one side alone.
pub fn alone(samples: usize, mut work: impl FnMut()) -> f64 {
    let runs = runs(&mut work).min(100);
    median((0..samples).map(|_| seconds(runs, &mut work)).collect())
}

impl Samples {
    pub fn take(count: usize, mut library: impl FnMut(), mut rust: impl FnMut()) -> Self {
        let (library_runs, rust_runs) = (runs(&mut library), runs(&mut rust));
        let turn = |_| {
            let library = seconds(library_runs, &mut library);
            (library, seconds(rust_runs, &mut rust))
        };
        Self((0..count).map(turn).collect())
    }

    pub fn joined(mut self, other: Self) -> Self {
        self.0.extend(other.0);
        self
    }

    pub fn library_median(&self) -> f64 {
        median(self.0.iter().map(|turn| turn.0).collect())
    }

    pub fn rust_median(&self) -> f64 {
        median(self.0.iter().map(|turn| turn.1).collect())
    }

    pub fn ratio(&self) -> Ratio {
        let ratios: Vec<_> = self
            .0
            .iter()
            .map(|(library, rust)| library / rust)
            .collect();
        Ratio {
            least: ratios.iter().copied().fold(f64::INFINITY, f64::min),
            greatest: ratios.iter().copied().fold(0.0, f64::max),
            median: median(ratios),
        }
    }
}

impl fmt::Display for Ratio {
    fn fmt(&self, f: &mut fmt::Formatter<'_>) -> fmt::Result {
        let Self {
            median,
            least,
            greatest,
        } = self;
        write!(f, "{median:.2} ({least:.2} to {greatest:.2})")
    }
}

pub fn microseconds(seconds: f64) -> String {
    let time = seconds * 1e6;
    match time {
        0.0..1.0 => format!("{time:.3}"),
        1.0..100.0 => format!("{time:.1}"),
        _ => format!("{time:.0}"),
    }
}
