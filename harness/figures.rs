//! How the benchmark takes its times.
use std::hint::black_box;
use std::time::{Duration, Instant};

/// Each time is the best of this many, at each of four places of the stack.
pub const BEST_OF: usize = 5;

pub fn nanoseconds(took: Duration, parts: u64) -> f64 {
    took.as_secs_f64() * 1e9 / parts as f64
}

/// The least time of all samples, in nanoseconds a part.
pub struct Best(pub f64);

impl Best {
    pub fn new() -> Best {
        Best(f64::MAX)
    }

    /// Times some work, which answers of how many parts it was.
    pub fn sample(&mut self, work: impl FnOnce() -> u64) {
        let began = Instant::now();
        let parts = work();
        self.0 = self.0.min(nanoseconds(began.elapsed(), parts));
    }

    /// Times work of so many parts, whose result is above 0.
    pub fn sample_parts(&mut self, parts: u64, work: impl FnOnce() -> u64) {
        self.sample(|| {
            assert!(work() > 0);
            parts
        });
    }
}

/// Works with the stack lower by some bytes: a table on it costs more where it lies across lines of the cache or pages.
#[inline(never)]
fn lower<const BYTES: usize>(work: &mut dyn FnMut()) {
    let unused = [0u8; BYTES];
    black_box(&unused);
    work();
}

/// Works `BEST_OF` times at each of four places of the stack.
pub fn at_four_places(work: &mut dyn FnMut()) {
    for _ in 0..BEST_OF {
        lower::<16>(work);
        lower::<1_056>(work);
        lower::<2_096>(work);
        lower::<3_136>(work);
    }
}
