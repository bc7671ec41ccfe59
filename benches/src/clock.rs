//! The time of this thread as the system counts it, so that other work on the machine does not count.

use std::ffi::c_int;

#[repr(C)]
struct Timespec {
    seconds: i64,
    nanos: i64,
}

extern "C" {
    fn clock_gettime(clock: c_int, time: *mut Timespec) -> c_int;
}

/// The number of the thread's clock.
const THREAD: c_int = 3;

fn now() -> f64 {
    let mut time = Timespec { seconds: 0, nanos: 0 };
    assert_eq!(unsafe { clock_gettime(THREAD, &mut time) }, 0);
    time.seconds as f64 * 1e9 + time.nanos as f64
}

/// The middle of a list of numbers, which is sorted.
pub fn median(values: &mut [f64]) -> f64 {
    values.sort_by(f64::total_cmp);
    values[values.len() / 2]
}

/// The nanoseconds that `work` takes, with the reading of the clock.
pub fn nanos(work: impl FnOnce()) -> f64 {
    let start = now();
    work();
    now() - start
}

/// The nanoseconds of reading the clock, the median of 31.
pub fn reading() -> f64 {
    median(&mut (0..31).map(|_| nanos(|| ())).collect::<Vec<f64>>())
}
