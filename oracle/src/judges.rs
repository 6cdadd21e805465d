//! The Rust where it tests the load: as it is on a sheet with seats alone, and as the library `both` has it on one with wheelchair places, which the Rust does not know. On the former both have to answer alike.
use crate::sheet::Sheet;
use crate::word::has_second;
use crate::{ga, local_search};
use both::Runs;
use std::fmt::Debug;

/// The answer for a sheet in words, of that with two measures and that with one.
fn judged<T: PartialEq + Debug>(words: &[u32], two: T, one: impl FnOnce() -> T) -> T {
    if has_second(words) {
        return two;
    }
    let one = one();
    assert_eq!(one, two, "a second load of 0 changes nothing");
    one
}

fn runs(cut: ga::SplitResult) -> Runs {
    (cut.routes, cut.total_distance)
}

/// The tour cut by `split_tw`. The sheet is that of the words, here and below.
pub fn split_tw(words: &[u32], sheet: &Sheet, tour: &[usize]) -> Runs {
    judged(words, both::split_tw(words, tour), || {
        runs(ga::split_tw(
            tour,
            &sheet.customers,
            &sheet.distances,
            sheet.capacity,
            &sheet.limits,
            sheet.fixed,
        ))
    })
}

/// The sheet's own tour cut by `split`.
pub fn split(words: &[u32], sheet: &Sheet) -> Runs {
    judged(words, both::split(words), || {
        runs(ga::split(
            &sheet.tour,
            &sheet.customers,
            &sheet.distances,
            sheet.capacity,
            sheet.fixed,
        ))
    })
}

/// The runs that elimination leaves of these.
pub fn eliminate_routes(words: &[u32], sheet: &Sheet, routes: &[Vec<usize>]) -> Vec<Vec<usize>> {
    let two = both::eliminate_routes(words, routes.to_vec());
    judged(words, two, || {
        let (customers, distances) = (&sheet.customers, &sheet.distances);
        local_search::eliminate_routes(routes.to_vec(), customers, distances, &sheet.vehicle())
    })
}
