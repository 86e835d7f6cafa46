//! The processor time this thread has taken. Unlike the time of day it does not run while other work has the
//! processor.

use std::time::Duration;

#[repr(C)]
struct Time {
    seconds: i64,
    nanoseconds: i64,
}

/// Linux's number of the thread's own clock.
const THREAD_CLOCK: i32 = 3;

extern "C" {
    fn clock_gettime(clock: i32, time: *mut Time) -> i32;
}

pub fn busy() -> Duration {
    let mut time = Time { seconds: 0, nanoseconds: 0 };
    // The call writes the two numbers and nothing else.
    let status = unsafe { clock_gettime(THREAD_CLOCK, &mut time) };
    assert_eq!(status, 0, "every thread has its clock");
    Duration::new(time.seconds as u64, time.nanoseconds as u32)
}
