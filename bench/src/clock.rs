//! Processor time of this process, so that other work on the machine
//! counts little. Linux on 64 bits.

use std::os::raw::{c_int, c_long};

#[repr(C)]
struct Time {
    seconds: c_long,
    nanoseconds: c_long,
}

const CLOCK_PROCESS_CPUTIME_ID: c_int = 2;

extern "C" {
    fn clock_gettime(clock: c_int, time: *mut Time) -> c_int;
}

pub fn nanoseconds() -> u64 {
    let mut time = Time { seconds: 0, nanoseconds: 0 };
    let failed = unsafe { clock_gettime(CLOCK_PROCESS_CPUTIME_ID, &mut time) };
    assert_eq!(failed, 0, "the processor time cannot be read");
    time.seconds as u64 * 1_000_000_000 + time.nanoseconds as u64
}
