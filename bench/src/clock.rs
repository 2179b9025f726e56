//! The processor time of this thread, which other work on the machine doesn't lengthen.

use std::ffi::{c_int, c_long};
use std::time::Duration;

/// C's `struct timespec` where a `long` has 64 bits.
#[repr(C)]
struct Timespec {
    seconds: c_long,
    nanoseconds: c_long,
}

/// Linux's number of the clock `CLOCK_THREAD_CPUTIME_ID`.
const THREAD_CLOCK: c_int = 3;

extern "C" {
    fn clock_gettime(clock: c_int, time: *mut Timespec) -> c_int;
}

pub fn processor_time() -> Duration {
    let mut time = Timespec {
        seconds: 0,
        nanoseconds: 0,
    };
    // The local has the layout that C writes to.
    let failed = unsafe { clock_gettime(THREAD_CLOCK, &mut time) };
    assert_eq!(failed, 0, "no clock of the thread's time");
    Duration::new(time.seconds as u64, time.nanoseconds as u32)
}
