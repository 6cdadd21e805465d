//! The port's timed functions (crates/bench_timing): each does its work so many times on one sheet. A lent list
//! passes as a pointer and a length.

extern "C" {
    fn timing_read(sheet: *const u8, length: usize, rounds: u32) -> f64;
    fn timing_split_tw(sheet: *const u8, length: usize, rounds: u32) -> f64;
    fn timing_split_least(sheet: *const u8, length: usize, rounds: u32) -> f64;
    fn timing_split(sheet: *const u8, length: usize, rounds: u32) -> f64;
    fn timing_two_opt(sheet: *const u8, length: usize, rounds: u32) -> f64;
    fn timing_eliminate(sheet: *const u8, length: usize, run: usize, rounds: u32) -> f64;
}

/// How many calls the sheet has.
pub fn read(sheet: &[u8], rounds: u32) -> f64 {
    // SAFETY: the pointer goes with its length.
    unsafe { timing_read(sheet.as_ptr(), sheet.len(), rounds) }
}

/// The cost of the cut, with breaks by the clock.
pub fn split_tw(sheet: &[u8], rounds: u32) -> f64 {
    // SAFETY: the pointer goes with its length.
    unsafe { timing_split_tw(sheet.as_ptr(), sheet.len(), rounds) }
}

/// The cost of the cut, with breaks where the least is paid for lateness.
pub fn split_least(sheet: &[u8], rounds: u32) -> f64 {
    // SAFETY: the pointer goes with its length.
    unsafe { timing_split_least(sheet.as_ptr(), sheet.len(), rounds) }
}

/// The cost of the cut by loads and closed legs alone.
pub fn split(sheet: &[u8], rounds: u32) -> f64 {
    // SAFETY: the pointer goes with its length.
    unsafe { timing_split(sheet.as_ptr(), sheet.len(), rounds) }
}

/// The distance of the tour as one run, after reversals.
pub fn two_opt(sheet: &[u8], rounds: u32) -> f64 {
    // SAFETY: the pointer goes with its length.
    unsafe { timing_two_opt(sheet.as_ptr(), sheet.len(), rounds) }
}

/// How many of the tour's runs of `run` calls are left.
pub fn eliminate(sheet: &[u8], run: usize, rounds: u32) -> f64 {
    // SAFETY: the pointer goes with its length.
    unsafe { timing_eliminate(sheet.as_ptr(), sheet.len(), run, rounds) }
}
