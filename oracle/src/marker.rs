//! The mark of a cutting beside the planner's. Written from the scope document and the requests alone: the Rust has no marker, and of its code only the plan is asked.
use crate::sheet::Sheet;
use std::cmp::Ordering;

/// Runs to be marked: the calls of all of them, then the end and the break place of each. Any bytes may stand there.
#[derive(Clone)]
pub struct Cutting {
    pub calls: Vec<usize>,
    pub ends: Vec<usize>,
    pub places: Vec<usize>,
}

/// A verdict's number and values, as library/lizsomdur.h has them.
pub type Verdict = (u32, Vec<u64>);

pub const OTHER_CALLS: u32 = 1;
pub const OVERLOAD: u32 = 2;
pub const BREAK_TOO_LATE: u32 = 3;
pub const WINDOW_MISSED: u32 = 4;
pub const BREAK_MISSING: u32 = 5;
pub const TOO_FAR: u32 = 6;
pub const TOO_LONG: u32 = 7;
pub const BEST: u32 = 8;
pub const DEARER: u32 = 9;
pub const CHEAPER: u32 = 10;
pub const WHEELCHAIR_OVERLOAD: u32 = 11;
pub const ROAD_CLOSED: u32 = 12;

/// The most calls, and the most run ends.
const MOST: usize = 128;

/// The mark on an accepted sheet for which the planner serves these customers at this cost, or the number that refuses the lists.
pub fn mark(sheet: &Sheet, served: &[usize], cost: u64, cutting: &Cutting) -> Result<Verdict, u32> {
    match refusal(sheet, cutting) {
        Some(number) => Err(number),
        None => Ok(verdict(sheet, served, cost, cutting)),
    }
}

/// The first number that fits. An accepted sheet gives no reason for 14, 21, 2 and 22, and 4 and 23 are the improvers'.
fn refusal(sheet: &Sheet, cutting: &Cutting) -> Option<u32> {
    let customers = 1..sheet.customers.len();
    if cutting.places.len() < cutting.ends.len() {
        Some(13)
    } else if cutting.calls.len() > MOST || cutting.calls.iter().any(|c| !customers.contains(c)) {
        Some(1)
    } else if cutting.ends.len() > MOST || !divides(cutting) || !breaks_fit(sheet, cutting) {
        Some(5)
    } else {
        None
    }
}

/// Where each run starts and ends, and its break place.
pub fn spans(cutting: &Cutting) -> impl Iterator<Item = (usize, usize, usize)> + '_ {
    let starts = std::iter::once(0).chain(cutting.ends.iter().copied());
    let ends = cutting.ends.iter().copied();
    let places = cutting.places.iter().copied();
    starts.zip(ends).zip(places).map(|((s, e), p)| (s, e, p))
}

/// Whether each run has a call, and the last ends with the calls.
fn divides(cutting: &Cutting) -> bool {
    let last = cutting.ends.last().copied().unwrap_or(0);
    last == cutting.calls.len() && spans(cutting).all(|(start, end, _)| start < end)
}

/// Whether each break place is one of its run's calls, or 0; without a break there is only 0. No run is empty.
fn breaks_fit(sheet: &Sheet, cutting: &Cutting) -> bool {
    let rest = sheet.limits.rest.is_some();
    spans(cutting).all(|(start, end, place)| place == 0 || rest && place <= end - start)
}

fn verdict(sheet: &Sheet, served: &[usize], cost: u64, cutting: &Cutting) -> Verdict {
    if cutting.calls != served {
        return (OTHER_CALLS, vec![first_difference(&cutting.calls, served)]);
    }
    let mut sum = 0;
    for (number, (start, end, place)) in (1..).zip(spans(cutting)) {
        match ride(sheet, &cutting.calls[start..end], place) {
            Ok(ride) => sum += ride.cost(sheet),
            Err(fault) => return behind(&[number], fault),
        }
    }
    match sum.cmp(&cost) {
        Ordering::Equal => (BEST, vec![]),
        Ordering::Greater => (DEARER, vec![sum - cost]),
        Ordering::Less => (CHEAPER, vec![cost - sum]),
    }
}

/// The first position, from 1, where the lists differ or one has ended.
fn first_difference(one: &[usize], other: &[usize]) -> u64 {
    let alike = one.iter().zip(other).take_while(|(a, b)| a == b).count();
    alike as u64 + 1
}

/// What a legal run comes to: its distance, what is paid for being late, when it is home, and when its break starts.
pub struct Ride {
    pub distance: u64,
    pub pay: u64,
    pub home: u64,
    pub start: Option<u64>,
}

impl Ride {
    pub fn cost(&self, sheet: &Sheet) -> u64 {
        whole(sheet.fixed) + self.distance + self.pay
    }
}

/// The run with its break at this place, or its first fault. A closed leg is the only fault of its run.
pub fn ride(sheet: &Sheet, calls: &[usize], place: usize) -> Result<Ride, Verdict> {
    if let Some(leg) = sheet.closed_leg(calls) {
        return Err((ROAD_CLOSED, vec![leg as u64]));
    }
    let demands = calls.iter().map(|&c| sheet.customers[c].demand() as u64);
    within(OVERLOAD, demands.sum(), sheet.capacity as u64)?;
    let second = calls.iter().map(|&c| sheet.second_demands[c] as u64);
    within(
        WHEELCHAIR_OVERLOAD,
        second.sum(),
        sheet.second_capacity as u64,
    )?;
    let (mut at, mut time, mut distance, mut pay, mut start) = (0, 0, 0, 0, None);
    for (number, &customer) in (1..).zip(calls) {
        distance += whole(sheet.distances.get(at, customer));
        let arrival = time + whole(sheet.distances.travel_time(at, customer));
        let served = rested(sheet, arrival, number == place)
            .and_then(|(rest, readiness)| Ok((rest, serve(sheet, customer, readiness)?)));
        let (rest, (done, paid)) =
            served.map_err(|fault| behind(&[number as u64, customer as u64], fault))?;
        (at, time, pay, start) = (customer, done, pay + paid, start.or(rest));
    }
    distance += whole(sheet.distances.get(at, 0));
    let home = time + whole(sheet.distances.travel_time(at, 0));
    if let (Some(rest), 0) = (sheet.limits.rest, place) {
        if home >= whole(rest.earliest()) {
            return Err((BREAK_MISSING, vec![home, whole(rest.earliest())]));
        }
    }
    if let Some(limit) = sheet.limits.max_distance {
        within(TOO_FAR, distance, whole(limit))?;
    }
    if let Some(limit) = sheet.limits.max_duration {
        within(TOO_LONG, home, whole(limit))?;
    }
    Ok(Ride {
        distance,
        pay,
        home,
        start,
    })
}

/// When a break that is due here starts, and when the bus is ready for the customer.
fn rested(sheet: &Sheet, arrival: u64, due: bool) -> Result<(Option<u64>, u64), Verdict> {
    if !due {
        return Ok((None, arrival));
    }
    let rest = sheet.limits.rest.expect("a break on the sheet");
    let start = arrival.max(whole(rest.earliest()));
    within(BREAK_TOO_LATE, start, whole(rest.latest()))?;
    Ok((Some(start), start + whole(rest.duration())))
}

/// When the customer is done with, and what is paid for being late.
fn serve(sheet: &Sheet, customer: usize, readiness: u64) -> Result<(u64, u64), Verdict> {
    let (mut time, mut paid) = (readiness, 0);
    let customer = &sheet.customers[customer];
    if let Some(window) = customer.time_window() {
        let due = whole(window.due());
        match customer.lateness_penalty() {
            None => within(WINDOW_MISSED, readiness, due)?,
            Some(penalty) => paid = whole(penalty) * readiness.saturating_sub(due),
        }
        time = time.max(whole(window.ready()));
    }
    Ok((time + whole(customer.service_duration()), paid))
}

/// A value above its limit is a fault; the limit itself is allowed.
fn within(fault: u32, value: u64, limit: u64) -> Result<(), Verdict> {
    if value > limit {
        Err((fault, vec![value, limit]))
    } else {
        Ok(())
    }
}

/// The fault with these values before its own.
fn behind(values: &[u64], (fault, own): Verdict) -> Verdict {
    (fault, [values, &own].concat())
}

/// The numbers of a sheet are whole and, but for closed legs, at most 10,000,000.
fn whole(x: f64) -> u64 {
    x as u64
}
