//! The time that this thread has been on a processor. Unlike the clock on the wall it stands
//! still while other work of the machine is done, so that a busy machine spoils less.

use std::time::Duration;

/// C's `struct timespec` on 64-bit Linux.
#[repr(C)]
#[derive(Default)]
struct Timespec {
    seconds: i64,
    nanoseconds: i64,
}

extern "C" {
    fn clock_gettime(clock: i32, time: *mut Timespec) -> i32;
}

/// Linux's number for the clock of the calling thread.
const CLOCK_THREAD_CPUTIME_ID: i32 = 3;

pub fn now() -> Duration {
    let mut time = Timespec::default();
    // SAFETY: the call writes one `struct timespec` to the place that it is lent.
    let status = unsafe { clock_gettime(CLOCK_THREAD_CPUTIME_ID, &mut time) };
    assert_eq!(status, 0, "Linux has a clock for each thread");
    Duration::new(time.seconds as u64, time.nanoseconds as u32)
}
