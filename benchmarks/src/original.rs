//! The same work by the original Rust, once.
use crate::distance::DistanceMatrix;
use crate::evaluation::route_eval;
use crate::ga;
use crate::local_search;
use crate::models::Vehicle;
use crate::reader;
use crate::sheet::Sheet;
use std::hint::black_box;

/// How many calls the sheet has. The original has no reader: this one is the oracle's.
pub fn read(bytes: &[u8]) -> f64 {
    let words = reader::words(black_box(bytes)).expect("an accepted sheet");
    Sheet::from_words(&words).tour.len() as f64
}

pub fn split_tw(sheet: &Sheet) -> ga::SplitResult {
    ga::split_tw(
        black_box(&sheet.tour),
        &sheet.customers,
        &sheet.distances,
        sheet.capacity,
        &sheet.limits,
        sheet.fixed,
    )
}

pub fn split(sheet: &Sheet) -> ga::SplitResult {
    ga::split(
        black_box(&sheet.tour),
        &sheet.customers,
        &sheet.distances,
        sheet.capacity,
        sheet.fixed,
    )
}

/// What the runs cost, their lateness pay included.
pub fn cost(sheet: &Sheet, cut: &ga::SplitResult) -> f64 {
    let paid = |run: &Vec<usize>| {
        route_eval(run, 0, &sheet.distances, &sheet.customers, &sheet.limits)
            .expect("a legal run")
            .lateness_cost
    };
    let pay: f64 = cut.routes.iter().map(paid).sum();
    cut.total_distance + cut.routes.len() as f64 * sheet.fixed + pay
}

/// What runs cost where nothing is paid for lateness.
pub fn plain_cost(sheet: &Sheet, cut: &ga::SplitResult) -> f64 {
    cut.total_distance + cut.routes.len() as f64 * sheet.fixed
}

/// The distance of the tour as one run, after reversals.
pub fn two_opt(sheet: &Sheet, table: &DistanceMatrix) -> f64 {
    local_search::two_opt_improve(&sheet.tour, 0, table, &sheet.customers, &sheet.limits).1
}

/// How many runs are left.
pub fn eliminate(
    sheet: &Sheet,
    vehicle: &Vehicle,
    runs: Vec<Vec<usize>>,
    table: &DistanceMatrix,
) -> f64 {
    local_search::eliminate_routes(runs, &sheet.customers, table, vehicle).len() as f64
}
