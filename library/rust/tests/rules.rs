//! What lizsomdur.h says of tables, closed legs, bounds, lateness, breaks and drops, on sheets of two customers.
mod common;
use common::listing::listing;
use common::sheets::Sheet;
use common::worked::{
    base, with_break, with_capacity, with_closed, with_distance_limit, with_wheelchairs,
    with_window,
};
use lizsomdur::{eliminate, plan, reverse};

/// Asserts that the sheet with these calls is planned so.
fn planned(sheet: Sheet, calls: &[u8], text: &str) {
    let sheet = sheet.with(calls);
    assert_eq!(listing(&sheet, &plan(&sheet)), text);
}

/// With the table read by columns the distance would be 140.
#[test]
fn legs_stand_in_the_row_of_the_place_that_they_start_from() {
    let uneven = Sheet {
        fixed: 100,
        distances: vec![1, 2, 4, 8, 16, 32, 64, 128, 256],
        ..base()
    };
    planned(
        uneven,
        &[1, 2],
        "run 1 2\ntotal 98 cost 198 served 2 dropped 0\n",
    );
}

#[test]
fn the_diagonal_is_a_leg_between_two_calls_at_one_customer() {
    let near = Sheet {
        distances: vec![900, 10, 12, 10, 3, 5, 12, 5, 900],
        ..base()
    };
    assert_eq!(reverse(&near.with(&[]), &[1, 1]), Ok((vec![1, 1], 23)));
}

/// The ford lies on the way from customer 1 to customer 2, and not on the way back.
#[test]
fn a_closed_leg_is_not_driven() {
    let two = "run 1\nrun 2\ntotal 44 cost 44 served 2 dropped 0\n";
    let ford = &[(1, 2)];
    planned(with_closed(base(), ford), &[1, 2], two);
    let back = "run 2 1\ntotal 27 cost 27 served 2 dropped 0\n";
    planned(with_closed(base(), ford), &[2, 1], back);
    let late_for_free = with_window(base(), [0, 9], Some(0));
    planned(with_closed(late_for_free, ford), &[1, 2], two);
    let timed = Sheet {
        times: vec![1; 9],
        ..base()
    };
    planned(with_closed(timed, ford), &[1, 2], two);
    let rested = "run 1 rest 1 20\nrun 2 rest 1 20\ntotal 44 cost 44 served 2 dropped 0\n";
    planned(with_closed(with_break(20, 30), ford), &[1, 2], rested);
}

/// Without a way home a call is dropped, even where another call follows; without a way there it is served behind another, if the bus holds both.
#[test]
fn a_call_without_a_road_is_dropped() {
    let home = with_closed(base(), &[(1, 0)]);
    let second = "run 2\ndrop 1\ntotal 24 cost 24 served 1 dropped 1\n";
    planned(home, &[1, 2], second);
    let there = &[(0, 2)];
    let one = "run 1 2\ntotal 27 cost 27 served 2 dropped 0\n";
    planned(with_closed(base(), there), &[1, 2], one);
    let first = "run 1\ndrop 2\ntotal 20 cost 20 served 1 dropped 1\n";
    planned(with_closed(with_capacity(3), there), &[1, 2], first);
}

/// The longest leg is driven where it has to be, and the diagonal is not used here.
#[test]
fn other_legs_are_driven() {
    let mut long = base();
    long.distances[6] = 10_000_000;
    let one = "run 1 2\ntotal 10000015 cost 10000015 served 2 dropped 0\n";
    planned(long, &[1, 2], one);
    let diagonal = with_closed(base(), &[(0, 0), (1, 1), (2, 2)]);
    let one = "run 1 2\ntotal 27 cost 27 served 2 dropped 0\n";
    planned(diagonal, &[1, 2], one);
}

#[test]
fn times_are_kept_apart_from_distances() {
    let timed = Sheet {
        times: vec![1; 9],
        duration_limit: Some(3),
        ..base()
    };
    planned(
        timed.clone(),
        &[1, 2],
        "run 1 2\ntotal 27 cost 27 served 2 dropped 0\n",
    );
    let shorter = Sheet {
        duration_limit: Some(2),
        ..timed
    };
    planned(
        shorter,
        &[1, 2],
        "run 1\nrun 2\ntotal 44 cost 44 served 2 dropped 0\n",
    );
}

#[test]
fn bounds_are_still_allowed() {
    let one = "run 1 2\ntotal 27 cost 27 served 2 dropped 0\n";
    let two = "run 1\nrun 2\ntotal 44 cost 44 served 2 dropped 0\n";
    let late = "run 2\ndrop 1\ntotal 24 cost 24 served 1 dropped 1\n";
    planned(with_window(base(), [0, 10], None), &[1, 2], one);
    planned(with_window(base(), [0, 9], None), &[1, 2], late);
    planned(with_distance_limit(27), &[1, 2], one);
    planned(with_distance_limit(26), &[1, 2], two);
    planned(base(), &[1, 2], one);
    planned(
        Sheet {
            capacity: 3,
            ..base()
        },
        &[1, 2],
        two,
    );
}

/// Both customers ask for two seats and one wheelchair place.
#[test]
fn a_run_is_within_both_capacities() {
    let one = "run 1 2\ntotal 27 cost 27 served 2 dropped 0\n";
    let two = "run 1\nrun 2\ntotal 44 cost 44 served 2 dropped 0\n";
    let none = "drop 1\ndrop 2\ntotal 0 cost 0 served 0 dropped 2\n";
    planned(with_wheelchairs(4, 2), &[1, 2], one);
    planned(with_wheelchairs(4, 1), &[1, 2], two);
    planned(with_wheelchairs(3, 2), &[1, 2], two);
    planned(with_wheelchairs(4, 0), &[1, 2], none);
    planned(with_wheelchairs(1, 2), &[1, 2], none);
}

/// A second capacity alone changes nothing, and a second demand alone fits nowhere.
#[test]
fn wheelchair_places_that_are_not_said_are_none() {
    let mut bay = with_wheelchairs(4, 1);
    bay.customers[0].wheelchairs = None;
    planned(
        bay.clone(),
        &[1, 2],
        "run 1 2\ntotal 27 cost 27 served 2 dropped 0\n",
    );
    bay.wheelchairs = None;
    planned(
        bay.clone(),
        &[1, 2],
        "run 1\ndrop 2\ntotal 20 cost 20 served 1 dropped 1\n",
    );
    bay.customers[1].wheelchairs = None;
    bay.wheelchairs = Some(1_000_000);
    assert_eq!(bay.with(&[1, 2]).len(), base().with(&[1, 2]).len() + 4);
    planned(
        bay.clone(),
        &[1, 2],
        "run 1 2\ntotal 27 cost 27 served 2 dropped 0\n",
    );
    bay.customers[0].wheelchairs = Some(32_767);
    planned(
        bay,
        &[1, 2],
        "run 1 2\ntotal 27 cost 27 served 2 dropped 0\n",
    );
}

#[test]
fn elimination_keeps_both_capacities() {
    let singles = [vec![1], vec![2]];
    let eliminated = |sheet: Sheet| eliminate(&sheet.with(&[]), &singles);
    assert_eq!(eliminated(with_wheelchairs(4, 2)), Ok(vec![vec![1, 2]]));
    assert_eq!(eliminated(with_wheelchairs(4, 1)), Ok(singles.to_vec()));
    assert_eq!(eliminated(with_wheelchairs(3, 2)), Ok(singles.to_vec()));
}

/// The bus is too full in both measures, and the other way round is shorter.
#[test]
fn reversal_looks_at_no_load() {
    let uneven = Sheet {
        distances: vec![0, 10, 2, 4, 0, 5, 12, 3, 0],
        ..with_wheelchairs(1, 0)
    };
    assert_eq!(reverse(&uneven.with(&[]), &[1, 2]), Ok((vec![2, 1], 9)));
}

#[test]
fn a_break_starts_from_earliest_to_latest_where_it_is_needed() {
    let at_first = "run 1 2 rest 1 10\ntotal 27 cost 27 served 2 dropped 0\n";
    planned(with_break(5, 10), &[1, 2], at_first);
    let never = "drop 1\ndrop 2\ntotal 0 cost 0 served 0 dropped 2\n";
    planned(with_break(5, 9), &[1, 2], never);
    let home_before_earliest = "run 1\ntotal 20 cost 20 served 1 dropped 0\n";
    planned(with_break(21, 30), &[1], home_before_earliest);
    let home_at_earliest = "run 1 rest 1 20\ntotal 20 cost 20 served 1 dropped 0\n";
    planned(with_break(20, 30), &[1], home_at_earliest);
}

#[test]
fn a_run_costs_its_fixed_cost_its_distance_and_its_lateness_pay() {
    let priced = Sheet {
        fixed: 100,
        ..with_window(base(), [0, 8], Some(3))
    };
    planned(
        priced,
        &[1, 2],
        "run 1 2\ntotal 27 cost 133 served 2 dropped 0\n",
    );
    let free = with_window(base(), [0, 8], Some(0));
    planned(
        free,
        &[1, 2],
        "run 1 2\ntotal 27 cost 27 served 2 dropped 0\n",
    );
}

/// Customer 1 alone is too far out and back, though not on the way to customer 2.
#[test]
fn the_last_call_of_the_shortest_beginning_is_dropped() {
    let mut far_home = with_distance_limit(27);
    far_home.distances[3] = 30;
    planned(
        far_home,
        &[1, 2],
        "run 2\ndrop 1\ntotal 24 cost 24 served 1 dropped 1\n",
    );
}
