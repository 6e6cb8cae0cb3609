//! Processor time, user and system together: what other programs of the machine take does not count.
use std::time::Duration;

#[repr(C)]
struct Timespec {
    seconds: i64,
    nanoseconds: i64,
}

#[repr(C)]
struct Timeval {
    seconds: i64,
    microseconds: i64,
}

/// The start of Linux's `struct rusage`, and the rest of it.
#[repr(C)]
struct Usage {
    user: Timeval,
    system: Timeval,
    rest: [i64; 14],
}

const CLOCK_THREAD_CPUTIME_ID: i32 = 3;
const RUSAGE_CHILDREN: i32 = -1;

unsafe extern "C" {
    fn clock_gettime(clock: i32, time: *mut Timespec) -> i32;
    fn getrusage(who: i32, usage: *mut Usage) -> i32;
}

/// What this thread has taken so far.
pub fn thread() -> Duration {
    let mut time = Timespec { seconds: 0, nanoseconds: 0 };
    // SAFETY: the struct is the one that Linux fills in on x86-64.
    let result = unsafe { clock_gettime(CLOCK_THREAD_CPUTIME_ID, &mut time) };
    assert!(result == 0, "the clock runs");
    Duration::new(time.seconds as u64, time.nanoseconds as u32)
}

/// What the processes that this one has started and waited for have taken.
pub fn children() -> Duration {
    let zero = || Timeval { seconds: 0, microseconds: 0 };
    let mut usage = Usage { user: zero(), system: zero(), rest: [0; 14] };
    // SAFETY: as above.
    let result = unsafe { getrusage(RUSAGE_CHILDREN, &mut usage) };
    assert!(result == 0, "the usage is known");
    let time = |part: Timeval| Duration::from_micros(part.seconds as u64 * 1_000_000 + part.microseconds as u64);
    time(usage.user) + time(usage.system)
}
