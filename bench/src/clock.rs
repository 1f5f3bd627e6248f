//! The processor's time, which waiting for a processor that others use doesn't add to.

use std::time::Duration;

#[repr(C)]
struct TimeSpec {
    seconds: i64,
    nanos: i64,
}

/// Linux's number for the clock of this process.
const PROCESS: i32 = 2;

extern "C" {
    fn clock_gettime(clock: i32, time: *mut TimeSpec) -> i32;
}

/// What this process has used so far.
pub fn used() -> Duration {
    let mut time = TimeSpec {
        seconds: 0,
        nanos: 0,
    };
    // SAFETY: the pointer is to a live place of the type that Linux fills. This clock is always
    // there.
    unsafe { clock_gettime(PROCESS, &mut time) };
    Duration::new(time.seconds as u64, time.nanos as u32)
}
