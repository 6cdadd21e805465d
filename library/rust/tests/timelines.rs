//! The timelines of runs, beside plans and marks of the same runs.
mod common;
use common::{given, records, PLACEMENTS};
use lizsomdur::{
    mark, plan_by, timeline, Customer, Refusal, Rest, Sheet, Timeline, Verdict, Violation, CALLS,
};

/// Two customers with two seats each, a bus with four, and a break that begins between 20 and 30.
fn small() -> Sheet {
    Sheet::new()
        .capacity(4)
        .rest(20, 30, 4)
        .customer(Customer::new(2))
        .customer(Customer::new(2))
        .distances([0, 10, 12, 10, 0, 5, 12, 5, 0])
        .tour([1, 2])
}

/// Each run of a plan has its break as the plan says and violates nothing, and all runs together are as long as the plan.
#[test]
fn the_runs_of_a_plan_violate_nothing() {
    let mut told = 0;
    for (number, (sheet, _)) in records(b's').iter().enumerate() {
        for placement in PLACEMENTS {
            let Ok(plan) = plan_by(placement, sheet) else {
                continue;
            };
            let mut distance = 0;
            for run in &plan.runs {
                let line = timeline(sheet, run).expect("a timeline");
                assert_eq!(
                    (line.rest, &line.violations[..]),
                    (run.rest, &[][..]),
                    "{number}"
                );
                assert_eq!(line.stops.len(), run.calls.len());
                distance += line.distance;
                told += 1;
            }
            assert_eq!(distance, plan.distance, "sheet {number}");
        }
    }
    assert!(told >= 1000);
}

/// A run violates nothing where the marker says what it is worth, and something where it names a fault.
#[test]
fn a_run_with_a_fault_violates_something() {
    for sheet in [small().bytes(), small().capacity(3).bytes()] {
        for place in 0..=2 {
            let run = given(&[1, 2], place);
            let line = timeline(&sheet, &run).expect("a timeline");
            let verdict = mark(&sheet, &[run]).expect("a verdict");
            let legal = matches!(verdict, Verdict::Best | Verdict::Dearer { .. });
            assert_eq!(line.violations.is_empty(), legal, "{verdict}");
        }
    }
}

#[test]
fn the_break_is_where_it_is_given() {
    let sheet = small().bytes();
    let at = |place| timeline(&sheet, &given(&[1, 2], place)).expect("a timeline");
    assert_eq!(at(0).rest, None);
    assert_eq!(at(0).violations, [Violation::Break]);
    assert_eq!(
        at(1).rest,
        Some(Rest {
            place: 1,
            start: 20
        })
    );
    assert_eq!((at(1).stops[0].arrival, at(1).stops[0].begin), (10, 24));
    assert_eq!(
        at(2).rest,
        Some(Rest {
            place: 2,
            start: 20
        })
    );
    assert_eq!((at(2).stops[1].arrival, at(2).stops[1].begin), (15, 24));
    assert_eq!(at(2).duration, 36);
}

#[test]
fn what_may_not_be_given_is_refused() {
    let number = |answer: Result<Timeline, Refusal>| answer.expect_err("a refusal").number;
    let sheet = small().bytes();
    assert_eq!(
        number(timeline(&sheet, &given(&[1, 2], 3))),
        Refusal::WRONG_RUNS
    );
    assert_eq!(
        number(timeline(&sheet, &given(&[1, 3], 0))),
        Refusal::OUT_OF_RANGE
    );
    assert_eq!(
        number(timeline(&sheet, &given(&[1; CALLS + 1], 0))),
        Refusal::OUT_OF_RANGE
    );
    assert_eq!(
        number(timeline(&sheet[4..], &given(&[1], 0))),
        Refusal::WRONG_KIND
    );
    assert!(timeline(&sheet, &given(&[1; CALLS], 0)).is_ok());
}
