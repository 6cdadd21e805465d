//! The library's functions as `lizsomdur.h` declares them: a lent list passes as a pointer and a length.

/// Declares functions of the library. The name by which one is linked has the package's major version in it, as in the header.
macro_rules! linked {
    ($(fn $name:ident($($parameter:ident: $type:ty,)*) -> $returned:ty;)*) => {
        extern "C" {
            $(
                #[link_name = concat!("lizsomdur_", env!("CARGO_PKG_VERSION_MAJOR"), "_", stringify!($name))]
                pub fn $name($($parameter: $type),*) -> $returned;
            )*
        }
    };
}

linked! {
    fn plan(
        sheet: *const u8,
        sheet_length: usize,
        served: *mut u8,
        served_length: usize,
        run_ends: *mut u8,
        run_ends_length: usize,
        break_places: *mut u8,
        break_places_length: usize,
        break_starts: *mut f64,
        break_starts_length: usize,
        dropped: *mut u8,
        dropped_length: usize,
        counts: *mut [usize; 3],
        totals: *mut [f64; 2],
        word: *mut usize,
    ) -> u32;

    fn plan_least(
        sheet: *const u8,
        sheet_length: usize,
        served: *mut u8,
        served_length: usize,
        run_ends: *mut u8,
        run_ends_length: usize,
        break_places: *mut u8,
        break_places_length: usize,
        break_starts: *mut f64,
        break_starts_length: usize,
        dropped: *mut u8,
        dropped_length: usize,
        counts: *mut [usize; 3],
        totals: *mut [f64; 2],
        word: *mut usize,
    ) -> u32;

    fn mark(
        sheet: *const u8,
        sheet_length: usize,
        calls: *const u8,
        calls_length: usize,
        ends: *const u8,
        ends_length: usize,
        places: *const u8,
        places_length: usize,
        word: *mut usize,
        verdict: *mut u32,
        values: *mut [f64; 5],
    ) -> u32;

    fn mark_least(
        sheet: *const u8,
        sheet_length: usize,
        calls: *const u8,
        calls_length: usize,
        ends: *const u8,
        ends_length: usize,
        places: *const u8,
        places_length: usize,
        word: *mut usize,
        verdict: *mut u32,
        values: *mut [f64; 5],
    ) -> u32;

    fn reverse(
        sheet: *const u8,
        sheet_length: usize,
        run: *const u8,
        run_length: usize,
        improved: *mut u8,
        improved_length: usize,
        word: *mut usize,
        distance: *mut f64,
    ) -> u32;

    fn eliminate(
        sheet: *const u8,
        sheet_length: usize,
        calls: *const u8,
        calls_length: usize,
        ends: *const u8,
        ends_length: usize,
        left_calls: *mut u8,
        left_calls_length: usize,
        left_ends: *mut u8,
        left_ends_length: usize,
        word: *mut usize,
        counts: *mut [usize; 2],
    ) -> u32;

    fn visits(
        sheet: *const u8,
        sheet_length: usize,
        run: *const u8,
        run_length: usize,
        place: usize,
        times: *mut f64,
        times_length: usize,
        loads: *mut u64,
        loads_length: usize,
        violations: *mut u8,
        violations_length: usize,
        figures: *mut f64,
        figures_length: usize,
        counts: *mut [usize; 3],
        totals: *mut [f64; 5],
        word: *mut usize,
    ) -> u32;
}
