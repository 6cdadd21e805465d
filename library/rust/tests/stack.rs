//! All functions on the largest sheets, with as much stack as lizsomdur.h says is enough.
mod common;
use common::sheets::{Customer, Sheet};
use common::PLACEMENTS;
use lizsomdur::{eliminate, mark_by, plan_by, reverse, Verdict, CALLS, NO_ROAD};
use std::thread;

const STACK: usize = 512_000;
const CUSTOMERS: usize = 63;

/// So many calls, in which a customer comes again only when all have come.
fn calls(count: usize) -> Vec<u8> {
    (0..count).map(|k| (1 + k * 11 % CUSTOMERS) as u8).collect()
}

/// A table of 64 rows whose legs differ.
fn legs(most: u32) -> Vec<u32> {
    (0..64 * 64).map(|entry| 1 + entry * 7919 % most).collect()
}

/// Everything that a sheet may have: 8,643 words with the penalties, the most that is accepted. Each customer is called once.
fn largest(penalty: Option<u32>) -> Sheet {
    let customer = Customer {
        demand: 1,
        wheelchairs: Some(1),
        service: 2,
        window: Some([10, 4_000]),
        penalty,
    };
    Sheet {
        capacity: 40,
        wheelchairs: Some(30),
        fixed: 50,
        distance_limit: Some(9_000),
        duration_limit: Some(9_000),
        rest: Some([100, 3_000, 20]),
        customers: vec![customer; CUSTOMERS],
        distances: legs(101),
        times: legs(31),
    }
}

/// The same with every fifth leg closed that goes from one call to the next.
fn closed() -> Sheet {
    let mut sheet = largest(Some(1));
    for pair in calls(CUSTOMERS).windows(2).step_by(5) {
        let leg = 64 * usize::from(pair[0]) + usize::from(pair[1]);
        (sheet.distances[leg], sheet.times[leg]) = (NO_ROAD, NO_ROAD);
    }
    sheet
}

/// Plans the sheet by each placement and marks the plan.
fn plan_and_mark(sheet: &[u8]) {
    for placement in PLACEMENTS {
        let plan = plan_by(placement, sheet).expect("an accepted sheet");
        assert!(plan.runs.len() > 1 && plan.served() == CUSTOMERS);
        let said = mark_by(placement, sheet, &plan.runs);
        assert_eq!(said, Ok(Verdict::Best));
    }
}

/// Improves as many calls as runs may have: as one run, and as a run each.
fn improve(sheet: &[u8]) {
    let calls = calls(CALLS);
    let (run, _) = reverse(sheet, &calls).expect("an accepted run");
    assert_ne!(run, calls);
    let singles: Vec<Vec<u8>> = calls.into_iter().map(|call| vec![call]).collect();
    let left = eliminate(sheet, &singles).expect("accepted runs");
    assert!(left.len() < singles.len());
}

fn all_functions() {
    let sheets = [largest(Some(1)), closed(), largest(None)];
    let [paying, closed, plain] = sheets.map(|sheet| sheet.with(&calls(CUSTOMERS)));
    assert_eq!(paying.len(), 4 * 8_643);
    for sheet in [&paying, &closed, &plain] {
        plan_and_mark(sheet);
    }
    improve(&plain);
}

#[test]
fn the_stack_is_enough_for_the_largest_sheets() {
    let thread = thread::Builder::new()
        .stack_size(STACK)
        .spawn(all_functions);
    thread.expect("a thread").join().expect("all functions end");
}
