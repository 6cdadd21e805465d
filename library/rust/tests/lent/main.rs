//! What the functions leave in lent memory: the answer at the front of each list, and everything else as it was.
#[path = "../common/mod.rs"]
mod common;
mod lists;
#[path = "../../src/raw.rs"]
mod raw;
mod recorded;
#[path = "../../src/slices.rs"]
mod slices;

use common::faulty::faulty;
use common::sheets::{Customer, Sheet};
use common::worked::{base, full, marked, of_closed, with_capacity, with_closed, with_window};
use common::{sample, PLACEMENTS};
use lists::{Judged, Left, Planned, Reversed, Timed, OLD_FLOAT};
use lizsomdur::Placement;

const ROOM: usize = lizsomdur::TOUR;

/// The room of the lists for a timeline.
const LINE: [usize; 4] = [
    3 * lizsomdur::CALLS,
    2 * lizsomdur::CALLS,
    lizsomdur::VIOLATIONS,
    3 * lizsomdur::VIOLATIONS,
];

type List<'a> = &'a [u8];

/// Three customers on one road out of the depot, and a bus for all.
fn road() -> Vec<u8> {
    let customer = Customer {
        demand: 1,
        ..Customer::default()
    };
    let sheet = Sheet {
        capacity: 3,
        customers: vec![customer; 3],
        distances: [
            [0, 10, 20, 30],
            [10, 0, 10, 20],
            [20, 10, 0, 10],
            [30, 20, 10, 0],
        ]
        .concat(),
        ..Sheet::default()
    };
    sheet.with(&[])
}

/// A sheet with lateness pay: it costs nothing to be late.
fn paying() -> Vec<u8> {
    with_window(base(), [0, 9], Some(0)).with(&[1, 2])
}

/// One with a leg that no run here uses, which is closed.
fn closed() -> Vec<u8> {
    with_closed(base(), &[(2, 1)]).with(&[1, 2])
}

/// One with both.
fn paying_and_closed() -> Vec<u8> {
    let closed = with_closed(base(), &[(2, 1)]);
    with_window(closed, [0, 9], Some(0)).with(&[1, 2])
}

#[test]
fn a_plan_is_written_at_the_fronts() {
    for room in [ROOM, 200] {
        let lent = Planned::new([room; 5]);
        let left = Planned {
            served: lent.served.fronted(&[3, 4, 6, 7]),
            run_ends: lent.run_ends.fronted(&[1, 3, 4]),
            break_places: lent.break_places.fronted(&[1, 2, 0]),
            break_starts: lent.break_starts.fronted(&[1000.0, 1337.0, 0.0]),
            dropped: lent.dropped.fronted(&[1, 2, 5]),
            counts: [4, 3, 3],
            totals: [2644.0, 2344.0],
            ..lent.clone()
        };
        for placement in PLACEMENTS {
            let after = lent.clone().after(placement, &sample("drops"));
            assert_eq!(after, (0, left.clone()));
        }
    }
}

#[test]
fn a_plan_without_room_is_refused_before_the_sheet_is_read() {
    for list in 0..5 {
        for sheet in [sample("m"), sample("refused")] {
            let mut room = [ROOM; 5];
            room[list] -= 1;
            let lent = Planned::new(room);
            let left = Planned {
                word: 0,
                ..lent.clone()
            };
            for placement in PLACEMENTS {
                let after = lent.clone().after(placement, &sheet);
                assert_eq!(after, (13, left.clone()), "list {list}");
            }
        }
    }
}

/// A bad sheet comes before bad lists, but for the plan, whose lists are good here.
#[test]
fn a_refused_sheet_sets_the_word_alone() {
    for (sheet, number, word) in faulty() {
        let planned = Planned::new([ROOM; 5]);
        let left = Planned {
            word,
            ..planned.clone()
        };
        let judged = Judged {
            word,
            ..Judged::new()
        };
        for placement in PLACEMENTS {
            let after = planned.clone().after(placement, &sheet);
            assert_eq!(after, (number, left.clone()));
            let after = Judged::new().after(placement, &sheet, &[99], &[7], &[]);
            assert_eq!(after, (number, judged.clone()));
        }
        let left = Reversed {
            word,
            ..Reversed::new(0)
        };
        assert_eq!(Reversed::new(0).after(&sheet, &[99]), (number, left));
        let left = Left {
            word,
            ..Left::new(0, 0)
        };
        assert_eq!(Left::new(0, 0).after(&sheet, &[99], &[7]), (number, left));
        let left = Timed {
            word,
            ..Timed::new(LINE)
        };
        assert_eq!(Timed::new(LINE).after(&sheet, &[99], 7), (number, left));
    }
}

#[test]
fn a_timeline_is_written_at_the_fronts() {
    let (line, road) = (Timed::new(LINE), road());
    let times = [10.0, 10.0, 10.0, 20.0, 20.0, 20.0, 30.0, 30.0, 30.0];
    let expected = Timed {
        times: line.times.fronted(&times),
        loads: line.loads.fronted(&[1, 0, 2, 0, 3, 0]),
        counts: [3, 0, 0],
        totals: [60.0, 60.0, 0.0, 0.0, 0.0],
        ..line.clone()
    };
    assert_eq!(line.clone().after(&road, &[1, 2, 3], 0), (0, expected));
    let overfull: List = &[1, 2, 3, 1];
    let (number, left) = line.clone().after(&road, overfull, 0);
    assert_eq!((number, left.counts), (0, [4, 1, 0]));
    assert_eq!(left.violations, line.violations.fronted(&[3]));
    assert_eq!(left.figures, line.figures.fronted(&[4.0, 3.0, 0.0]));
}

#[test]
fn a_timeline_that_is_refused_leaves_the_lists() {
    let line = Timed::new(LINE);
    let road = road();
    for (run, place, number) in [(&[1, 4][..], 0, 1), (&[1; 129], 0, 1), (&[1], 1, 5)] {
        assert_eq!(
            line.clone().after(&road, run, place),
            (number, line.clone())
        );
    }
    for short in 0..LINE.len() {
        let mut rooms = LINE;
        rooms[short] -= 1;
        let line = Timed::new(rooms);
        let left = Timed {
            word: 0,
            ..line.clone()
        };
        assert_eq!(line.after(&[], &[1], 0), (13, left));
    }
}

/// How many values the verdicts have, by number.
const VALUES: [usize; 13] = [0, 1, 3, 5, 5, 3, 3, 3, 0, 1, 1, 3, 2];

/// The end and the break place of each run.
fn ends_and_places(runs: &[(Vec<u8>, u8)]) -> (Vec<u8>, Vec<u8>) {
    let mut end = 0;
    runs.iter()
        .map(|(calls, place)| {
            end += calls.len() as u8;
            (end, *place)
        })
        .unzip()
}

#[test]
fn a_verdict_sets_its_own_values() {
    let mut seen = [false; VALUES.len()];
    let closed = of_closed().into_iter().map(|(cut, _)| cut);
    for cut in marked().into_iter().chain(closed) {
        let calls: Vec<u8> = cut.runs.iter().flat_map(|run| run.0.clone()).collect();
        let (ends, places) = ends_and_places(&cut.runs);
        let judged = Judged::new();
        let (number, left) = judged.after(Placement::Clock, &cut.sheet, &calls, &ends, &places);
        let count = VALUES[left.verdict as usize];
        seen[left.verdict as usize] = true;
        let mut values = left.values;
        values[count..].fill(OLD_FLOAT);
        let expected = Judged {
            verdict: left.verdict,
            values,
            ..Judged::new()
        };
        assert!(!values[..count].contains(&OLD_FLOAT), "{}", cut.name);
        assert_eq!((number, left), (0, expected), "{}", cut.name);
    }
    assert!(seen[1..].iter().all(|&verdict| verdict));
}

/// Rows with several faults show which is told: 13 before 1 before 5. In some a part of a byte would be right.
#[test]
fn refused_runs_of_a_mark_leave_everything() {
    let (broken, whole) = (full().with(&[1, 2]), base().with(&[1, 2]));
    let table: [(&[u8], List, List, List, u32); 18] = [
        (&broken, &[9, 2], &[2, 1], &[3], 13),
        (&broken, &[1, 2], &[1, 2], &[0], 13),
        (&broken, &[1, 6], &[2, 1], &[3, 3], 1),
        (&broken, &[0, 2], &[2], &[0], 1),
        (&broken, &[1; 129], &[129], &[0], 1),
        (&broken, &[1, 2], &[2, 1], &[0, 0], 5),
        (&broken, &[1, 2], &[1], &[0], 5),
        (&broken, &[1, 2], &[], &[], 5),
        (&broken, &[1, 2], &[2, 2], &[0, 0], 5),
        (&broken, &[1; 128], &[128; 129], &[0; 129], 5),
        (&broken, &[1, 2], &[2], &[3], 5),
        (&whole, &[1, 2], &[2], &[1], 5),
        (&broken, &[255, 2], &[2], &[0], 1),
        (&broken, &[65, 2], &[2], &[0], 1),
        (&broken, &[1, 2], &[3], &[0], 5),
        (&broken, &[1, 2], &[255], &[0], 5),
        (&broken, &[1, 2], &[66], &[0], 5),
        (&broken, &[1, 2], &[2], &[66], 5),
    ];
    for (row, (sheet, calls, ends, places, number)) in table.into_iter().enumerate() {
        for placement in PLACEMENTS {
            let after = Judged::new().after(placement, sheet, calls, ends, places);
            assert_eq!(after, (number, Judged::new()), "row {row}");
        }
    }
}

#[test]
fn break_places_beyond_the_runs_are_not_read() {
    let sheet = base().with(&[1, 2]);
    for placement in PLACEMENTS {
        let (number, left) = Judged::new().after(placement, &sheet, &[1, 2], &[2], &[0, 99]);
        assert_eq!((number, left.verdict), (0, 8));
    }
}

#[test]
fn a_reversed_run_is_written_at_the_front() {
    for room in [3, 10] {
        let lent = Reversed::new(room);
        let left = Reversed {
            improved: lent.improved.fronted(&[1, 2, 3]),
            distance: 60.0,
            ..lent.clone()
        };
        assert_eq!(lent.after(&road(), &[2, 1, 3]), (0, left));
    }
    let left = Reversed {
        distance: 0.0,
        ..Reversed::new(4)
    };
    assert_eq!(Reversed::new(4).after(&road(), &[]), (0, left));
}

/// Rows with several faults show which is told: 13 before 1 before 4 before 23.
#[test]
fn a_refused_run_leaves_everything() {
    let table: [(&[u8], List, usize, u32); 12] = [
        (&paying(), &[9, 2], 1, 13),
        (&road(), &[1; 129], 128, 13),
        (&paying(), &[9, 2], 2, 1),
        (&road(), &[0], 1, 1),
        (&road(), &[1; 129], 129, 1),
        (&paying(), &[1, 2], 2, 4),
        (&closed(), &[9, 2], 1, 13),
        (&closed(), &[9, 2], 2, 1),
        (&paying_and_closed(), &[1, 2], 2, 4),
        (&closed(), &[1, 2], 2, 23),
        (&road(), &[255], 1, 1),
        (&road(), &[65], 1, 1),
    ];
    for (row, (sheet, run, room, number)) in table.into_iter().enumerate() {
        let lent = Reversed::new(room);
        assert_eq!(lent.clone().after(sheet, run), (number, lent), "row {row}");
    }
}

#[test]
fn runs_left_are_written_at_the_fronts() {
    for room in [4, 10] {
        let lent = Left::new(room, room);
        let left = Left {
            calls: lent.calls.fronted(&[1, 3, 2]),
            ends: lent.ends.fronted(&[3]),
            counts: [3, 1],
            ..lent.clone()
        };
        assert_eq!(lent.after(&road(), &[1, 2, 3], &[1, 1, 2, 3]), (0, left));
    }
}

/// Neither run has room for a call of the other.
#[test]
fn the_largest_run_end_is_written_at_the_front() {
    let (calls, ends) = ([1; 128], [127, 128]);
    for room in [128, 140] {
        let lent = Left::new(room, room);
        let left = Left {
            calls: lent.calls.fronted(&calls),
            ends: lent.ends.fronted(&ends),
            counts: [128, 2],
            ..lent.clone()
        };
        let sheet = with_capacity(2).with(&[]);
        assert_eq!(lent.after(&sheet, &calls, &ends), (0, left));
    }
}

/// A sheet, calls and run ends, the room of the two result lists, and the number of the refusal.
type Eliminating<'a> = (&'a [u8], List<'a>, List<'a>, [usize; 2], u32);

/// Rows with several faults show which is told: 13 before 1 before 5 before 4 before 23.
#[test]
fn refused_runs_of_an_elimination_leave_everything() {
    let table: [Eliminating; 18] = [
        (&paying(), &[9, 2], &[2, 1], [1, 2], 13),
        (&paying(), &[9, 2], &[2, 1], [2, 1], 13),
        (&paying(), &[9, 2], &[2, 1], [2, 2], 1),
        (&road(), &[1; 129], &[129], [129, 1], 1),
        (&paying(), &[1, 2], &[2, 1], [2, 2], 5),
        (&road(), &[1, 2], &[1], [2, 1], 5),
        (&road(), &[1, 2], &[], [2, 0], 5),
        (&road(), &[], &[0; 129], [0, 129], 5),
        (&paying(), &[1, 2], &[1, 2], [2, 2], 4),
        (&closed(), &[9, 2], &[2, 1], [2, 2], 1),
        (&closed(), &[1, 2], &[2, 1], [2, 2], 5),
        (&paying_and_closed(), &[1, 2], &[1, 2], [2, 2], 4),
        (&closed(), &[1, 2], &[1, 2], [2, 2], 23),
        (&road(), &[255], &[1], [1, 1], 1),
        (&road(), &[65], &[1], [1, 1], 1),
        (&road(), &[1, 2], &[3], [2, 1], 5),
        (&road(), &[1, 2], &[255], [2, 1], 5),
        (&road(), &[1, 2], &[66], [2, 1], 5),
    ];
    for (row, (sheet, calls, ends, room, number)) in table.into_iter().enumerate() {
        let lent = Left::new(room[0], room[1]);
        assert_eq!(
            lent.clone().after(sheet, calls, ends),
            (number, lent),
            "row {row}"
        );
    }
}
