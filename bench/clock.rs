//! The best time of a call: several batches, each long enough for the clock, the shortest one taken. It is the thread's own time on the
//! processor, so that what else the machine does counts only as far as it disturbs the caches.

use std::ffi::{c_int, c_long};
use std::hint::black_box;

const BATCHES: usize = 5;
/// A batch's length, and what is spent at most on one call's batches, in microseconds.
const BATCH: f64 = 4_000.0;
const MOST: f64 = 2_000_000.0;
/// The length of a short batch.
const SHORT: f64 = 300.0;

#[repr(C)]
#[derive(Default)]
struct Timespec {
    seconds: c_long,
    nanoseconds: c_long,
}

const CLOCK_THREAD_CPUTIME_ID: c_int = 3;

extern "C" {
    fn clock_gettime(clock: c_int, time: *mut Timespec) -> c_int;
}

/// The thread's time so far, in microseconds.
fn now() -> f64 {
    let mut time = Timespec::default();
    assert_eq!(unsafe { clock_gettime(CLOCK_THREAD_CPUTIME_ID, &mut time) }, 0, "no clock of the thread's time");
    time.seconds as f64 * 1e6 + time.nanoseconds as f64 / 1e3
}

/// Microseconds for one call, as the mean of some calls.
fn batch<T>(call: &mut impl FnMut() -> T, calls: usize) -> f64 {
    let start = now();
    for _ in 0..calls {
        black_box(call());
    }
    (now() - start) / calls as f64
}

/// Microseconds for one call, from as many batches as there is time for.
pub fn best<T>(mut call: impl FnMut() -> T) -> f64 {
    let first = batch(&mut call, 1);
    let calls = (BATCH / first).clamp(1.0, 100_000.0) as usize;
    let batches = (MOST / first).clamp(0.0, BATCHES as f64) as usize;
    (0..batches).map(|_| batch(&mut call, calls)).fold(first, f64::min)
}

/// Microseconds for one call, from one short batch: for calls that are asked again in many passes, so that none has only the machine's slow moments.
pub fn shortly<T>(mut call: impl FnMut() -> T) -> f64 {
    let first = batch(&mut call, 1);
    batch(&mut call, (SHORT / first).clamp(1.0, 100_000.0) as usize)
}

/// Microseconds for one call, the best of three: enough to find the slow ones among many.
pub fn roughly<T>(mut call: impl FnMut() -> T) -> f64 {
    (0..3).map(|_| batch(&mut call, 1)).fold(f64::MAX, f64::min)
}
