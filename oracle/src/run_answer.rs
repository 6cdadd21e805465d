//! What the Rust makes of a run list, as text: the visits of each run, whether it may be made and what it costs, on sheets without lateness pay and closed legs each run reversed and the runs left by elimination, and the cut of the tour by loads and closed legs. Of a run over a closed leg the Rust is asked nothing: what is said of it is written from the requests.
use crate::evaluation::{effective_cost, has_soft_windows, route_feasible, RouteEvaluator};
use crate::judges::{eliminate_routes, split};
use crate::local_search::two_opt_improve;
use crate::models::{Route, Violation, ViolationType};
use crate::plan;
use crate::sheet::Sheet;
use crate::word::{exchanged, has_closed, unconstrained};
use std::fmt::Write;

/// That of an accepted sheet in words.
pub fn of(words: &[u32], routes: &[Vec<usize>]) -> String {
    let sheet = &Sheet::from_words(words);
    let second = &Sheet::from_words(&exchanged(words));
    let mut text = String::new();
    for route in routes {
        visits(&mut text, sheet, second, route);
    }
    for route in routes {
        evaluated(&mut text, sheet, route);
    }
    if !has_soft_windows(&sheet.customers) && !has_closed(words) {
        for route in routes {
            reversed(&mut text, sheet, route);
        }
        for route in eliminate_routes(words, sheet, routes) {
            line(&mut text, "left", &route);
        }
    }
    by_capacity(&mut text, words, sheet);
    text
}

/// A word, and the numbers after it.
fn line<T: std::fmt::Display>(text: &mut String, first: &str, numbers: &[T]) {
    *text += first;
    for number in numbers {
        write!(text, " {number}").expect("text");
    }
    *text += "\n";
}

/// The run as the Rust builds it, and its violations.
fn built(sheet: &Sheet, route: &[usize]) -> (Route, Vec<Violation>) {
    let vehicle = sheet.vehicle();
    RouteEvaluator::new(&sheet.customers, &sheet.distances, &vehicle).build_route(route)
}

/// The visits, the violations by number with their figures, and the totals. The Rust builds the run twice: by seats, and by wheelchair places in place of seats, for the second load.
fn visits(text: &mut String, sheet: &Sheet, second: &Sheet, route: &[usize]) {
    if let Some(leg) = sheet.closed_leg(route) {
        return not_driven(text, leg);
    }
    let [(built, violations), (second, second_violations)] =
        [sheet, second].map(|sheet| built(sheet, route));
    for (v, w) in std::iter::zip(built.visits(), second.visits()) {
        let loads = [v.load_after, w.load_after].map(f64::from);
        let times = [v.arrival_time, v.departure_time];
        let customer = [v.customer_id as f64];
        line(text, "visit", &[&customer[..], &times, &loads].concat());
    }
    for figures in in_order(&violations, &second_violations) {
        line(text, "violation", &figures);
    }
    let (distance, duration) = (built.total_distance(), built.total_duration());
    let (lateness, cost) = (built.total_lateness(), built.lateness_cost());
    let loads = [built.total_load(), second.total_load()].map(f64::from);
    let mut totals = vec![distance, duration, lateness, cost];
    totals.extend(loads);
    if let Some((index, start)) = built.rest() {
        totals.extend([index as f64 + 1.0, start]);
    }
    line(text, "route", &totals);
}

/// The number of a closed leg.
const CLOSED_LEG: usize = 7;

/// A run over a closed leg has no visits, and this one violation; all totals are 0.
fn not_driven(text: &mut String, leg: usize) {
    line(text, "violation", &[CLOSED_LEG, leg]);
    line(text, "route", &[0; 6]);
}

/// The number of a second load above capacity.
const SECOND: f64 = 6.0;

/// The figures of the violations. A second load above capacity stands where the first does, or behind it: before distance and duration.
fn in_order(violations: &[Violation], second: &[Violation]) -> Vec<Vec<f64>> {
    let mut all: Vec<_> = violations.iter().map(|v| figures(&v.kind)).collect();
    let mut over = second.iter().map(|v| figures(&v.kind));
    if let Some(over) = over.find(|figures| figures[0] == 3.0) {
        let at = all.iter().position(|figures| figures[0] > 3.0);
        let at = at.unwrap_or(all.len());
        all.insert(at, [&[SECOND], &over[1..]].concat());
    }
    all
}

/// The violation's number, in the scope document's order, and its figures.
fn figures(kind: &ViolationType) -> Vec<f64> {
    match *kind {
        ViolationType::TimeWindowViolated {
            customer_id,
            arrival,
            due,
            ..
        } => vec![1.0, customer_id as f64, arrival, due],
        ViolationType::BreakNotPlaceable { .. } => vec![2.0],
        ViolationType::CapacityExceeded { load, capacity, .. } => {
            vec![3.0, f64::from(load), f64::from(capacity)]
        }
        ViolationType::MaxDistanceExceeded {
            distance,
            max_distance,
            ..
        } => vec![4.0, distance, max_distance],
        ViolationType::MaxDurationExceeded {
            duration,
            max_duration,
            ..
        } => vec![5.0, duration, max_duration],
        _ => unreachable!("no violation of a single run"),
    }
}

/// The run after reversals, and its distance.
fn reversed(text: &mut String, sheet: &Sheet, route: &[usize]) {
    let (calls, distance) =
        two_opt_improve(route, 0, &sheet.distances, &sheet.customers, &sheet.limits);
    let calls: Vec<f64> = calls.iter().map(|&c| c as f64).collect();
    line(text, "reversed", &[&[distance], &calls[..]].concat());
}

/// Whether the run may be made, and what it costs.
fn evaluated(text: &mut String, sheet: &Sheet, route: &[usize]) {
    if sheet.closed_leg(route).is_some() {
        return *text += "infeasible infinite\n";
    }
    let Sheet {
        distances,
        customers,
        limits,
        ..
    } = sheet;
    *text += if route_feasible(route, 0, distances, customers, limits) {
        "feasible"
    } else {
        "infeasible"
    };
    let cost = effective_cost(route, 0, distances, customers, limits);
    if cost.is_finite() {
        line(text, "", &[cost]);
    } else {
        *text += " infinite\n";
    }
}

/// Served customers, run ends, dropped positions (from 1), cost and distance: those of the plan by `split_tw` of the sheet without limits, break and windows. Where no leg is closed, they are those of the Rust's `split`.
fn by_capacity(text: &mut String, words: &[u32], sheet: &Sheet) {
    let plan = plan::of(&unconstrained(words));
    let routes: Vec<Vec<usize>> = plan.runs.iter().map(|(run, _)| run.clone()).collect();
    if !has_closed(words) {
        let (own_routes, distance) = split(words, sheet);
        assert_eq!(own_routes, routes, "both cut alike");
        assert_eq!(distance, plan.distance, "both cut alike");
        assert_eq!(too_heavy(sheet), plan.dropped, "both drop alike");
    }
    let ends: Vec<usize> = (1..=routes.len())
        .map(|runs| routes[..runs].concat().len())
        .collect();
    let dropped: Vec<usize> = plan.dropped.iter().map(|position| position + 1).collect();
    line(text, "served", &plan.served);
    line(text, "ends", &ends);
    line(text, "dropped", &dropped);
    line(text, "split", &[plan.cost, plan.distance]);
}

/// The positions of the calls that no vehicle holds, from 0: those that `split` leaves out.
fn too_heavy(sheet: &Sheet) -> Vec<usize> {
    let heavy = |&position: &usize| {
        let customer = sheet.tour[position];
        sheet.customers[customer].demand() > sheet.capacity
            || sheet.second_demands[customer] > sheet.second_capacity
    };
    (0..sheet.tour.len()).filter(heavy).collect()
}
