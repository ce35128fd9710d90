//! The processor time of this thread, which other work on the machine does not add to.

use std::time::Duration;

mod raw {
    #[repr(C)]
    pub struct Timespec {
        pub seconds: i64,
        pub nanoseconds: i64,
    }

    extern "C" {
        pub fn clock_gettime(clock: i32, time: *mut Timespec) -> i32;
    }
}

/// `CLOCK_THREAD_CPUTIME_ID` of Linux.
const THREAD: i32 = 3;

pub fn now() -> Duration {
    let mut time = raw::Timespec { seconds: 0, nanoseconds: 0 };
    // SAFETY: `time` has the layout of C's `timespec` on 64-bit Linux, and is written whole.
    let failed = unsafe { raw::clock_gettime(THREAD, &mut time) };
    assert_eq!(failed, 0, "no clock for the thread");
    Duration::new(time.seconds as u64, time.nanoseconds as u32)
}
