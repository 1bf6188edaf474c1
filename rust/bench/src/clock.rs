//! The processor time of this thread: other work on the machine disturbs it
//! less than the time of day.

#[repr(C)]
struct Timespec {
    seconds: i64,
    nanoseconds: i64,
}

extern "C" {
    fn clock_gettime(clock: i32, time: *mut Timespec) -> i32;
}

/// CLOCK_THREAD_CPUTIME_ID on Linux.
const THREAD_CLOCK: i32 = 3;

/// Seconds of processor time this thread has used.
pub fn seconds() -> f64 {
    let mut time = Timespec {
        seconds: 0,
        nanoseconds: 0,
    };
    // SAFETY: the pointer is to a live structure of the layout asked for.
    let failed = unsafe { clock_gettime(THREAD_CLOCK, &mut time) };
    assert_eq!(failed, 0, "no thread clock");
    time.seconds as f64 + time.nanoseconds as f64 * 1e-9
}
