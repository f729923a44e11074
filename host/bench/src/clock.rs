//! The processor's time that this thread has taken: other work on the machine does not count.

/// C's `struct timespec` on 64-bit Linux.
#[repr(C)]
struct Timespec {
    seconds: i64,
    nanoseconds: i64,
}

extern "C" {
    fn clock_gettime(clock: i32, time: *mut Timespec) -> i32;
}

/// Linux's number for CLOCK_THREAD_CPUTIME_ID.
const THREAD: i32 = 3;

/// In milliseconds.
pub fn taken<T>(work: impl FnOnce() -> T) -> f64 {
    let before = now();
    work();
    (now() - before) as f64 / 1e6
}

fn now() -> i64 {
    let mut time = Timespec {
        seconds: 0,
        nanoseconds: 0,
    };
    // SAFETY: the structure is C's, and outlives the call.
    let failed = unsafe { clock_gettime(THREAD, &mut time) };
    assert_eq!(failed, 0, "Linux has a clock for each thread");
    time.seconds * 1_000_000_000 + time.nanoseconds
}
