//! Lists in bytes: the largest numbers that are written and taken, and bytes that are none of a list's numbers.
mod common;
use common::sheets::{Customer, Sheet};
use common::worked::{base, with_break, with_capacity};
use common::{runs, PLACEMENTS};
use lizsomdur::{eliminate, mark_by, plan_by, reverse, Refusal, Rest, Verdict, CALLS, TOUR};

fn refused<T>(number: u32) -> Result<T, Refusal> {
    Err(Refusal { number, word: None })
}

/// So many calls at the two customers of the base, in turns.
fn calls(count: usize) -> Vec<u8> {
    [1, 2].into_iter().cycle().take(count).collect()
}

/// All customers that a sheet may have, each with a seat, all places as far from each other, and a bus with so many seats.
fn most_places(capacity: u32) -> Sheet {
    let customer = Customer {
        demand: 1,
        ..Customer::default()
    };
    Sheet {
        capacity,
        customers: vec![customer; TOUR],
        distances: vec![1; 64 * 64],
        ..Sheet::default()
    }
}

#[test]
fn the_largest_customer_and_position_are_written() {
    let all: Vec<u8> = (1..=63).collect();
    let back: Vec<u8> = (1..=63).rev().collect();
    for placement in PLACEMENTS {
        let served = plan_by(placement, &most_places(63).with(&back)).expect("a plan");
        assert_eq!((&served.runs[0].calls, served.runs.len()), (&back, 1));
        let dropped = plan_by(placement, &most_places(0).with(&back)).expect("a plan");
        assert_eq!((&dropped.dropped, dropped.runs), (&all, vec![]));
    }
}

/// A break may begin when the run comes to its last call, so that nothing is waited for there and everything at the calls before.
#[test]
fn the_largest_break_place_is_written() {
    let sheet = Sheet {
        rest: Some([63, 63, 4]),
        ..most_places(63)
    };
    let all: Vec<u8> = (1..=63).collect();
    for placement in PLACEMENTS {
        let plan = plan_by(placement, &sheet.with(&all)).expect("a plan");
        let last = Rest {
            place: 63,
            start: 63,
        };
        assert_eq!((plan.runs[0].rest, plan.runs.len()), (Some(last), 1));
    }
}

/// A run without room in another stays as it is.
#[test]
fn the_largest_run_end_is_taken_and_written() {
    let (sheet, most) = (with_capacity(2).with(&[]), calls(CALLS));
    let two = vec![most[..CALLS - 1].to_vec(), vec![2]];
    for runs in [vec![most.clone()], two] {
        assert_eq!(eliminate(&sheet, &runs), Ok(runs));
    }
}

/// The distance is least with all calls at one customer in a row.
#[test]
fn the_longest_run_is_taken_and_written() {
    let sorted = [vec![1; CALLS / 2], vec![2; CALLS / 2]].concat();
    let (run, distance) = reverse(&base().with(&[]), &calls(CALLS)).expect("an accepted run");
    assert_eq!(distance, 27);
    assert!(run == sorted || run.iter().rev().eq(&sorted));
}

/// The break place may be that of the last call, and no further.
#[test]
fn the_largest_break_place_is_taken() {
    let sheet = with_break(0, 30).with(&[1, 2]);
    for placement in PLACEMENTS {
        let said = |place: u8| mark_by(placement, &sheet, &runs(&[(calls(CALLS), place)]));
        assert_eq!(said(128), Ok(Verdict::OtherCalls { position: 3 }));
        assert_eq!(said(129), refused(5));
        assert_eq!(said(255), refused(5));
    }
}

/// Some would be customers if only a part of the byte were read.
#[test]
fn bytes_that_are_no_customers_are_refused() {
    let sheet = base().with(&[1, 2]);
    for call in [0, 3, 63, 64, 65, 129, 255] {
        let run = [1, call];
        for placement in PLACEMENTS {
            let said = mark_by(placement, &sheet, &runs(&[(run, 0)]));
            assert_eq!(said, refused(1), "{call}");
        }
        assert_eq!(reverse(&sheet, &run), refused(1), "{call}");
        assert_eq!(eliminate(&sheet, &[run.to_vec()]), refused(1), "{call}");
    }
    let sheet = most_places(63).with(&[]);
    assert_eq!(reverse(&sheet, &[63]), Ok((vec![63], 2)));
    assert_eq!(reverse(&sheet, &[64]), refused(1));
}

/// Among them as many as a byte has no number for.
#[test]
fn more_calls_than_are_taken_are_refused() {
    let sheet = base().with(&[1, 2]);
    for count in [129, 255, 256, 257, 300, 384] {
        let run = calls(count);
        for placement in PLACEMENTS {
            let said = mark_by(placement, &sheet, &runs(&[(&run, 0)]));
            assert_eq!(said, refused(1), "{count}");
        }
        assert_eq!(reverse(&sheet, &run), refused(1), "{count}");
        let parts = [run[..100].to_vec(), run[100..].to_vec()];
        assert_eq!(eliminate(&sheet, &parts), refused(1), "{count}");
    }
}
