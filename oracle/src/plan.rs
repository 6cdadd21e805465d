//! The plan of a sheet by the Rust's `split_tw`, with what that does not say itself: cost, breaks and drops.
use crate::evaluation::{route_eval, RouteEval};
use crate::judges::split_tw;
use crate::sheet::Sheet;

pub struct Plan {
    /// The calls of each run, and what the Rust reports of it.
    pub runs: Vec<(Vec<usize>, RouteEval)>,
    /// The customers that are served, in order.
    pub served: Vec<usize>,
    /// The positions that are dropped, from 0, in drop order.
    pub dropped: Vec<usize>,
    pub distance: f64,
    pub cost: f64,
}

/// That of an accepted sheet in words.
pub fn of(words: &[u32]) -> Plan {
    let sheet = Sheet::from_words(words);
    let (routes, distance) = split_tw(words, &sheet, &sheet.tour);
    let (dropped, served) = drops(words, &sheet);
    assert_eq!(routes.concat(), served, "the Rust serves the held calls");
    let closed = routes.iter().find_map(|run| sheet.closed_leg(run));
    assert_eq!(closed, None, "the Rust takes no infinite leg");
    let runs: Vec<_> = routes
        .into_iter()
        .map(|run| {
            let total = evaluated(&sheet, &run).expect("a legal run");
            (run, total)
        })
        .collect();
    let costs = runs
        .iter()
        .map(|(_, total)| sheet.fixed + total.distance + total.lateness_cost);
    Plan {
        cost: costs.fold(0.0, |sum, cost| sum + cost),
        runs,
        served,
        dropped,
        distance,
    }
}

/// What the Rust reports of a run with the clock's break, if it is allowed. A run over a closed leg is not, and the Rust is not asked about it.
pub fn evaluated(sheet: &Sheet, run: &[usize]) -> Option<RouteEval> {
    if sheet.closed_leg(run).is_some() {
        return None;
    }
    route_eval(run, 0, &sheet.distances, &sheet.customers, &sheet.limits)
}

/// The positions that are dropped, from 0, in drop order, and the calls that are held at the end. Each beginning of the held calls is asked about once: what is dropped changes no shorter one.
fn drops(words: &[u32], sheet: &Sheet) -> (Vec<usize>, Vec<usize>) {
    let (mut dropped, mut held) = (Vec::new(), Vec::new());
    for (position, &call) in sheet.tour.iter().enumerate() {
        held.push(call);
        if split_tw(words, sheet, &held).0.concat().len() < held.len() {
            held.pop();
            dropped.push(position);
        }
    }
    (dropped, held)
}
