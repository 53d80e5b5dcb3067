//! Time that does not count other work on the machine.

use std::time::{Duration, Instant};

#[repr(C)]
struct TimeSpec {
    seconds: i64,
    nanoseconds: i64,
}

/// Of the C library, on Linux: the processor time of this thread.
const CLOCK_THREAD_CPUTIME_ID: i32 = 3;

extern "C" {
    fn clock_gettime(clock: i32, time: *mut TimeSpec) -> i32;
}

fn processor_time() -> Duration {
    let mut time = TimeSpec { seconds: 0, nanoseconds: 0 };
    // the time is written to a place of our own
    let status = unsafe { clock_gettime(CLOCK_THREAD_CPUTIME_ID, &mut time) };
    assert!(status == 0, "no clock");
    Duration::new(time.seconds as u64, time.nanoseconds as u32)
}

/// How long the work takes: the time that passes or the thread's processor time, whichever is less. Reading the second takes
/// somewhat long itself, and the first has everything in it that else runs.
pub fn seconds<T>(work: impl FnOnce() -> T) -> (f64, T) {
    let processor = processor_time();
    let started = Instant::now();
    let result = work();
    let passed = started.elapsed();
    let processor = processor_time() - processor;
    (passed.min(processor).as_secs_f64(), result)
}
