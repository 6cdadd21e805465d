//! Plans with breaks by least pay: beside those of the oracle's brute force, and beside those by the clock.
mod common;
use common::listing::listing;
use common::sheets::{Customer, Sheet};
use common::worked::{base, with_break, with_window};
use common::{kind, pays, records, runs, words, PLACEMENTS};
use lizsomdur::{mark_by, plan_by, Placement, Plan, Verdict};

fn planned(placement: Placement, sheet: &[u8]) -> String {
    listing(sheet, &plan_by(placement, sheet))
}

#[test]
fn plans_by_least_pay_are_the_recorded_ones() {
    let records = records(b'l');
    assert!(records.len() >= 317);
    for (number, (sheet, answer)) in records.iter().enumerate() {
        assert_eq!(&planned(Placement::Least, sheet), answer, "sheet {number}");
    }
}

#[test]
fn wrong_plans_are_noticed() {
    let records = records(b'L');
    assert!(records.len() >= 77);
    for (number, (sheet, answer)) in records.iter().enumerate() {
        assert_ne!(&planned(Placement::Least, sheet), answer, "sheet {number}");
    }
}

/// Bench case q: where the clock puts the break, the bus is late.
fn case_q() -> Sheet {
    with_window(with_break(0, 30), [12, 13], Some(5))
}

fn with_duration_limit(sheet: Sheet, limit: u32) -> Sheet {
    let duration_limit = Some(limit);
    Sheet {
        duration_limit,
        ..sheet
    }
}

const AT_FIRST: &str = "run 1 2 rest 1 10\ntotal 27 cost 32 served 2 dropped 0\n";
const AT_SECOND: &str = "run 1 2 rest 2 17\ntotal 27 cost 27 served 2 dropped 0\n";

#[test]
fn case_q_is_planned_and_marked_by_either() {
    let sheet = case_q().with(&[1, 2]);
    assert_eq!(planned(Placement::Clock, &sheet), AT_FIRST);
    assert_eq!(planned(Placement::Least, &sheet), AT_SECOND);
    let said = |placement, place| mark_by(placement, &sheet, &runs(&[([1, 2], place)]));
    assert_eq!(said(Placement::Clock, 1), Ok(Verdict::Best));
    assert_eq!(said(Placement::Clock, 2), Ok(Verdict::Cheaper { by: 5 }));
    assert_eq!(said(Placement::Least, 1), Ok(Verdict::Dearer { by: 5 }));
    assert_eq!(said(Placement::Least, 2), Ok(Verdict::Best));
}

/// At the second call nothing is paid, and the bus is home at 33.
#[test]
fn the_least_pay_is_looked_for_within_the_limits() {
    for (limit, text) in [(32, AT_FIRST), (33, AT_SECOND)] {
        let sheet = with_duration_limit(case_q(), limit).with(&[1, 2]);
        assert_eq!(planned(Placement::Least, &sheet), text);
    }
}

/// With the same pay: home at 36 in place of 41; home at 31 either way; late either way, and home before a break is needed.
#[test]
fn of_equal_pay_the_earlier_return_counts_then_no_break_then_the_earlier_call() {
    let late = Sheet {
        rest: Some([40, 50, 4]),
        ..with_window(base(), [0, 9], Some(3))
    };
    let table = [
        (with_break(20, 30), "run 1 2 rest 2 20\ntotal 27 cost 27"),
        (with_break(0, 30), "run 1 2 rest 1 10\ntotal 27 cost 27"),
        (late, "run 1 2\ntotal 27 cost 30"),
    ];
    for (sheet, text) in table {
        let expected = format!("{text} served 2 dropped 0\n");
        assert_eq!(planned(Placement::Least, &sheet.with(&[1, 2])), expected);
    }
}

/// With the break at the second call the bus leaves there sooner, and then waits at the third.
#[test]
fn without_lateness_pay_breaks_may_still_be_at_different_calls() {
    let mut customers = vec![Customer::default(); 3];
    customers[2].window = Some([40, 50]);
    let sheet = Sheet {
        rest: Some([12, 30, 4]),
        customers,
        distances: [
            [0, 10, 20, 30],
            [10, 0, 10, 20],
            [20, 10, 0, 10],
            [30, 20, 10, 0],
        ]
        .concat(),
        ..Sheet::default()
    };
    let sheet = sheet.with(&[1, 2, 3]);
    let table = [(Placement::Clock, "2 20"), (Placement::Least, "1 12")];
    for (placement, rest) in table {
        let text = format!("run 1 2 3 rest {rest}\ntotal 60 cost 60 served 3 dropped 0\n");
        assert_eq!(planned(placement, &sheet), text);
    }
}

/// The calls of each run.
fn cut(plan: &Plan) -> Vec<&[u8]> {
    plan.runs.iter().map(|run| &run.calls[..]).collect()
}

fn has_break(sheet: &[u8]) -> bool {
    words(sheet).into_iter().any(|word| kind(word) == 6)
}

/// What lizsomdur.h says of the two plans of a sheet, and of the marks of each beside each.
fn held_together(number: usize, sheet: &[u8], clock: &Plan, least: &Plan) {
    let calls = [clock, least].map(|plan| (&plan.dropped, cut(plan).concat()));
    assert_eq!(calls[0], calls[1], "sheet {number}");
    if !pays(sheet) {
        let runs = [clock, least].map(|plan| (cut(plan), plan.cost));
        assert_eq!(runs[0], runs[1], "sheet {number}");
    }
    if !has_break(sheet) {
        assert_eq!(clock, least, "sheet {number}");
    }
    let by = clock.cost.checked_sub(least.cost).expect("no dearer");
    let (dearer, cheaper) = match by {
        0 => (Verdict::Best, Verdict::Best),
        _ => (Verdict::Dearer { by }, Verdict::Cheaper { by }),
    };
    let said = [
        (Placement::Least, least, Verdict::Best),
        (Placement::Least, clock, dearer),
        (Placement::Clock, least, cheaper),
    ];
    for (placement, plan, verdict) in said {
        let mark = mark_by(placement, sheet, &plan.runs);
        assert_eq!(mark, Ok(verdict), "sheet {number}");
    }
}

/// Of every recorded sheet.
#[test]
fn both_plans_are_as_the_header_says() {
    let (mut apart, mut free) = (0, 0);
    for (number, (sheet, _)) in [records(b's'), records(b'l')].concat().iter().enumerate() {
        let plans = PLACEMENTS.map(|placement| plan_by(placement, sheet));
        if let [Ok(clock), Ok(least)] = &plans {
            held_together(number, sheet, clock, least);
            apart += usize::from(clock.cost > least.cost);
            free += usize::from(has_break(sheet) && !pays(sheet));
        } else {
            assert_eq!(plans[0], plans[1], "sheet {number}");
        }
    }
    assert!(apart > 70 && free > 70, "apart {apart}, free {free}");
}
