//! How long something takes, without the time in which the machine does something else.
use std::time::Instant;

/// Linux's number for the processor time of this thread (CLOCK_THREAD_CPUTIME_ID).
const THREAD: i32 = 3;

extern "C" {
    fn clock_gettime(clock: i32, seconds_and_nanoseconds: *mut [i64; 2]) -> i32;
}

/// The processor time of this thread, in seconds.
fn processor() -> f64 {
    let mut time = [0; 2];
    // SAFETY: on 64-bit Linux the call writes two 64-bit numbers.
    let failed = unsafe { clock_gettime(THREAD, &mut time) };
    assert_eq!(failed, 0, "no clock of the thread");
    time[0] as f64 + time[1] as f64 * 1e-9
}

/// Time gone by, or the thread's processor time where that is less: the first is read sooner, and the second leaves
/// out the time in which another program has the processor.
pub fn seconds(work: impl FnOnce()) -> f64 {
    let used = processor();
    let start = Instant::now();
    work();
    let gone = start.elapsed().as_secs_f64();
    gone.min(processor() - used)
}
