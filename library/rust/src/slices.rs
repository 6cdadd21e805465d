//! The library's functions on slices, which know their lengths and never overlap what is written.
use crate::{raw, Placement};

#[allow(clippy::too_many_arguments)] // as many as the function has, and which of the two it is
pub fn plan(
    placement: Placement,
    sheet: &[u8],
    served: &mut [u8],
    run_ends: &mut [u8],
    break_places: &mut [u8],
    break_starts: &mut [f64],
    dropped: &mut [u8],
    counts: &mut [usize; 3],
    totals: &mut [f64; 2],
    word: &mut usize,
) -> u32 {
    let plan = match placement {
        Placement::Clock => raw::plan,
        Placement::Least => raw::plan_least,
    };
    // SAFETY: a slice is as long as it says, and nothing else refers to one that is lent to be written.
    unsafe {
        plan(
            sheet.as_ptr(),
            sheet.len(),
            served.as_mut_ptr(),
            served.len(),
            run_ends.as_mut_ptr(),
            run_ends.len(),
            break_places.as_mut_ptr(),
            break_places.len(),
            break_starts.as_mut_ptr(),
            break_starts.len(),
            dropped.as_mut_ptr(),
            dropped.len(),
            counts,
            totals,
            word,
        )
    }
}

#[allow(clippy::too_many_arguments)] // as in `plan`
pub fn mark(
    placement: Placement,
    sheet: &[u8],
    calls: &[u8],
    ends: &[u8],
    places: &[u8],
    word: &mut usize,
    verdict: &mut u32,
    values: &mut [f64; 5],
) -> u32 {
    let mark = match placement {
        Placement::Clock => raw::mark,
        Placement::Least => raw::mark_least,
    };
    // SAFETY: as in `plan`.
    unsafe {
        mark(
            sheet.as_ptr(),
            sheet.len(),
            calls.as_ptr(),
            calls.len(),
            ends.as_ptr(),
            ends.len(),
            places.as_ptr(),
            places.len(),
            word,
            verdict,
            values,
        )
    }
}

pub fn reverse(
    sheet: &[u8],
    run: &[u8],
    improved: &mut [u8],
    word: &mut usize,
    distance: &mut f64,
) -> u32 {
    // SAFETY: as in `plan`.
    unsafe {
        raw::reverse(
            sheet.as_ptr(),
            sheet.len(),
            run.as_ptr(),
            run.len(),
            improved.as_mut_ptr(),
            improved.len(),
            word,
            distance,
        )
    }
}

pub fn eliminate(
    sheet: &[u8],
    calls: &[u8],
    ends: &[u8],
    left_calls: &mut [u8],
    left_ends: &mut [u8],
    word: &mut usize,
    counts: &mut [usize; 2],
) -> u32 {
    // SAFETY: as in `plan`.
    unsafe {
        raw::eliminate(
            sheet.as_ptr(),
            sheet.len(),
            calls.as_ptr(),
            calls.len(),
            ends.as_ptr(),
            ends.len(),
            left_calls.as_mut_ptr(),
            left_calls.len(),
            left_ends.as_mut_ptr(),
            left_ends.len(),
            word,
            counts,
        )
    }
}

#[allow(clippy::too_many_arguments)] // as in `plan`
pub fn visits(
    sheet: &[u8],
    run: &[u8],
    place: usize,
    times: &mut [f64],
    loads: &mut [u64],
    violations: &mut [u8],
    figures: &mut [f64],
    counts: &mut [usize; 3],
    totals: &mut [f64; 5],
    word: &mut usize,
) -> u32 {
    // SAFETY: as in `plan`.
    unsafe {
        raw::visits(
            sheet.as_ptr(),
            sheet.len(),
            run.as_ptr(),
            run.len(),
            place,
            times.as_mut_ptr(),
            times.len(),
            loads.as_mut_ptr(),
            loads.len(),
            violations.as_mut_ptr(),
            violations.len(),
            figures.as_mut_ptr(),
            figures.len(),
            counts,
            totals,
            word,
        )
    }
}
