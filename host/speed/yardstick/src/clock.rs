//! Time that this thread has run, or the processes that it started, so that other work on the machine counts as little as it can, and what keeps the work between
//! two times.

use std::time::Duration;

#[repr(C)]
struct Time {
    seconds: i64,
    nanoseconds: i64,
}

/// Seconds and microseconds in the program and in the system, then counts.
#[repr(C)]
#[derive(Default)]
struct Usage {
    program: [i64; 2],
    system: [i64; 2],
    _counts: [i64; 14],
}

extern "C" {
    fn clock_gettime(clock: i32, time: *mut Time) -> i32;
    fn getrusage(whose: i32, usage: *mut Usage) -> i32;
}

const THREAD_CPU_TIME: i32 = 3;
const CHILDREN: i32 = -1;

pub fn now() -> Duration {
    let mut time = Time { seconds: 0, nanoseconds: 0 };
    // Safe: the C library, which std links, fills the two numbers (Linux on a 64-bit processor).
    let status = unsafe { clock_gettime(THREAD_CPU_TIME, &mut time) };
    assert_eq!(status, 0, "no clock for this thread");
    Duration::new(time.seconds as u64, time.nanoseconds as u32)
}

/// The processor's time for all processes that this one has started and seen end, and for theirs.
pub fn of_children() -> Duration {
    let mut usage = Usage::default();
    // Safe: the C library fills the 18 numbers (Linux on a 64-bit processor).
    let status = unsafe { getrusage(CHILDREN, &mut usage) };
    assert_eq!(status, 0, "no times of processes");
    let [program, system] =
        [usage.program, usage.system].map(|[seconds, microseconds]| Duration::new(seconds as u64, microseconds as u32 * 1_000));
    program + system
}

/// The value, of which the compiler knows nothing: `std::hint::black_box`, which Debian's compiler does not have yet.
#[inline(always)]
pub fn kept<T>(value: T) -> T {
    // Safe: the value is moved, and the first copy is forgotten.
    unsafe {
        let moved = std::ptr::read_volatile(&value);
        std::mem::forget(value);
        moved
    }
}
