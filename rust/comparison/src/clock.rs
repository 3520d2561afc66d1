//! Processor time, so that other programs on the machine matter less than by the wall clock.

use std::time::Duration;

/// The time that this process, with all its threads, has had a processor.
pub fn own_time() -> Duration {
    #[repr(C)]
    struct Timespec {
        seconds: i64,
        nanoseconds: i64,
    }
    extern "C" {
        fn clock_gettime(clock: i32, time: *mut Timespec) -> i32;
    }
    const PROCESS_CLOCK: i32 = 2;
    let mut time = Timespec { seconds: 0, nanoseconds: 0 };
    // Safety: the C library fills the struct that it is given, which has the layout of its own.
    let status = unsafe { clock_gettime(PROCESS_CLOCK, &mut time) };
    assert_eq!(status, 0, "the clock of the process");
    Duration::new(time.seconds as u64, time.nanoseconds as u32)
}

/// The processor time of all programs that this one has run to their end.
pub fn children_time() -> Duration {
    #[repr(C)]
    struct Usage {
        user: [i64; 2],
        system: [i64; 2],
        others: [i64; 14],
    }
    extern "C" {
        fn getrusage(who: i32, usage: *mut Usage) -> i32;
    }
    const CHILDREN: i32 = -1;
    let mut usage = Usage { user: [0; 2], system: [0; 2], others: [0; 14] };
    // Safety: the C library fills the struct that it is given, which has the layout of its own.
    let status = unsafe { getrusage(CHILDREN, &mut usage) };
    assert_eq!(status, 0, "the usage of children");
    let time = |[seconds, micros]: [i64; 2]| Duration::new(seconds as u64, micros as u32 * 1000);
    time(usage.user) + time(usage.system)
}
