//! The processor's seconds: other work on the machine would show in those of a clock.

use std::hint::black_box;

/// As Linux has it on 64 bits.
#[repr(C)]
struct Timespec {
    seconds: i64,
    nanoseconds: i64,
}

const PROCESS_CPUTIME: i32 = 2;

extern "C" {
    fn clock_gettime(clock: i32, time: *mut Timespec) -> i32;
}

fn now() -> f64 {
    let mut time = Timespec {
        seconds: 0,
        nanoseconds: 0,
    };
    // The pointer stands for a place that lives through the call.
    let failed = unsafe { clock_gettime(PROCESS_CPUTIME, &mut time) };
    assert_eq!(failed, 0, "this machine has no such clock");
    time.seconds as f64 + time.nanoseconds as f64 / 1e9
}

/// How long the work takes, whose result is not looked at.
pub fn seconds<T>(work: impl FnOnce() -> T) -> f64 {
    let begin = now();
    black_box(work());
    now() - begin
}

/// How long it takes so many times.
pub fn repeated<T>(times: usize, work: impl Fn() -> T) -> f64 {
    seconds(|| {
        for _ in 0..times {
            black_box(work());
        }
    })
}
