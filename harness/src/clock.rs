//! The processor time of this thread, which other processes on the machine disturb less than wall time.

use std::ffi::c_long;

#[repr(C)]
struct Timespec {
    seconds: c_long,
    nanoseconds: c_long,
}

/// CLOCK_THREAD_CPUTIME_ID on Linux.
const THREAD_TIME: i32 = 3;

extern "C" {
    fn clock_gettime(clock: i32, time: *mut Timespec) -> i32;
}

pub fn cpu_nanoseconds() -> f64 {
    let mut time = Timespec { seconds: 0, nanoseconds: 0 };
    // SAFETY: `time` has the layout of a Linux timespec and outlives the call.
    let status = unsafe { clock_gettime(THREAD_TIME, &mut time) };
    assert_eq!(status, 0, "no clock of the thread's time");
    time.seconds as f64 * 1e9 + time.nanoseconds as f64
}
