//! The time that a thread has run: what others take of its processor does not count.

/// C's time: seconds and nanoseconds.
#[repr(C)]
struct Timespec {
    seconds: i64,
    nanoseconds: i64,
}

extern "C" {
    fn clock_gettime(clock: i32, time: *mut Timespec) -> i32;
}

/// Linux's clock of a thread.
const THREAD_CLOCK: i32 = 3;

/// The seconds that this thread has run.
pub fn now() -> f64 {
    let mut t = Timespec {
        seconds: 0,
        nanoseconds: 0,
    };
    // It writes the time to `t`, which lives.
    let failed = unsafe { clock_gettime(THREAD_CLOCK, &mut t) };
    assert_eq!(failed, 0, "no clock");
    t.seconds as f64 + t.nanoseconds as f64 * 1e-9
}

/// Seconds in the unit that suits them.
pub fn short(seconds: f64) -> String {
    if seconds >= 1.0 {
        format!("{seconds:.2} s")
    } else if seconds >= 1e-3 {
        format!("{:.2} ms", seconds * 1e3)
    } else {
        format!("{:.2} us", seconds * 1e6)
    }
}
