//! Processor time, which other programs on the machine disturb less than the time of day.

use std::time::Duration;

/// The parts of C's structures that are read, on 64-bit Linux.
mod c {
    #[repr(C)]
    #[derive(Clone, Copy, Default)]
    pub struct Time {
        pub seconds: i64,
        pub fraction: i64,
    }

    #[repr(C)]
    #[derive(Default)]
    pub struct Usage {
        pub user: Time,
        pub system: Time,
        pub others: [i64; 14],
    }

    pub const PROCESS_CPU_CLOCK: i32 = 2;
    pub const CHILDREN: i32 = -1;

    extern "C" {
        pub fn clock_gettime(clock: i32, time: *mut Time) -> i32;
        pub fn getrusage(who: i32, usage: *mut Usage) -> i32;
    }
}

/// The processor time of this process.
pub fn process_time() -> Duration {
    let mut time = c::Time::default();
    // SAFETY: the structure is C's, and lent for the call.
    let failed = unsafe { c::clock_gettime(c::PROCESS_CPU_CLOCK, &mut time) };
    assert_eq!(failed, 0, "the clock of processor time");
    Duration::new(time.seconds as u64, time.fraction as u32)
}

/// The processor time of all processes that this one started and that ended.
pub fn children_time() -> Duration {
    let mut usage = c::Usage::default();
    // SAFETY: the structure is C's, and lent for the call.
    let failed = unsafe { c::getrusage(c::CHILDREN, &mut usage) };
    assert_eq!(failed, 0, "the usage of processor time");
    let micros =
        |time: c::Time| Duration::from_micros((time.seconds * 1_000_000 + time.fraction) as u64);
    micros(usage.user) + micros(usage.system)
}
