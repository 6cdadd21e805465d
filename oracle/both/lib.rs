//! The Rust's cuts and its elimination where there are wheelchair places beside the seats: the given files unchanged, with stubs for which a demand is in two measures (load.rs, models.rs).
mod distance;
mod evaluation;
mod ga;
mod load;
mod local_search;
mod models;
mod sheet;
mod word;

use ga::SplitResult;
use sheet::Sheet;

/// Runs, and their distance.
pub type Runs = (Vec<Vec<usize>>, f64);

fn runs(cut: SplitResult) -> Runs {
    (cut.routes, cut.total_distance)
}

/// The tour cut by `split_tw`, on an accepted sheet in words.
pub fn split_tw(words: &[u32], tour: &[usize]) -> Runs {
    let Sheet {
        customers,
        distances,
        capacity,
        limits,
        fixed,
        ..
    } = &Sheet::from_words(words);
    runs(ga::split_tw(
        tour, customers, distances, *capacity, limits, *fixed,
    ))
}

/// The sheet's own tour cut by `split`.
pub fn split(words: &[u32]) -> Runs {
    let Sheet {
        tour,
        customers,
        distances,
        capacity,
        fixed,
        ..
    } = &Sheet::from_words(words);
    runs(ga::split(tour, customers, distances, *capacity, *fixed))
}

/// The runs that elimination leaves of these.
pub fn eliminate_routes(words: &[u32], routes: Vec<Vec<usize>>) -> Vec<Vec<usize>> {
    let sheet = Sheet::from_words(words);
    local_search::eliminate_routes(routes, &sheet.customers, &sheet.distances, &sheet.vehicle())
}
