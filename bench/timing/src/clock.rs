//! How fast one call is.

use std::ffi::{c_int, c_long};
use std::hint::black_box;

/// A sample lasts at least this long, so that the clock's own steps don't count.
const LEAST_SECONDS: f64 = 0.02;

#[repr(C)]
struct Time {
    seconds: i64,
    nanoseconds: c_long,
}

extern "C" {
    fn clock_gettime(clock: c_int, time: *mut Time) -> c_int;
}

/// Linux's name of the clock that runs while this thread does.
const CLOCK_THREAD_CPUTIME_ID: c_int = 3;

/// How long the processor was at work for this thread: what other programs take of it meanwhile does not count.
fn worked() -> f64 {
    let mut time = Time { seconds: 0, nanoseconds: 0 };
    // SAFETY: the time lives on this stack, and is as C has it on 64-bit Linux.
    assert_eq!(unsafe { clock_gettime(CLOCK_THREAD_CPUTIME_ID, &mut time) }, 0);
    time.seconds as f64 + time.nanoseconds as f64 / 1e9
}

/// Calls until the sample is long enough, and says how many megabytes of input went by in a second.
pub fn megabytes_per_second(bytes: usize, mut call: impl FnMut() -> bool) -> f64 {
    let mut calls = 1u32;
    loop {
        let start = worked();
        for _ in 0..calls {
            assert!(black_box(call()));
        }
        let seconds = worked() - start;
        if seconds >= LEAST_SECONDS {
            return bytes as f64 * f64::from(calls) / seconds / 1e6;
        }
        calls *= 2;
    }
}

#[derive(Clone, Default)]
pub struct Sample(Vec<f64>);

impl Sample {
    pub fn add(&mut self, rate: f64) {
        self.0.push(rate);
    }

    pub fn count(&self) -> usize {
        self.0.len()
    }

    pub fn median(&self) -> f64 {
        let mut rates = self.0.clone();
        rates.sort_by(f64::total_cmp);
        rates[rates.len() / 2]
    }
}
