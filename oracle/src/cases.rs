//! The bench cases a to q of the scope document, as sheets in words.
use crate::word::{ended, word};

/// What a case changes of the base.
struct Case {
    capacity: u32,
    /// Words of the kinds 4 and 6: a distance limit, a break.
    limits: Vec<u32>,
    /// Words of the kinds 9, A and B: the window and the penalty of customer 1.
    window: Vec<u32>,
    /// By rows.
    legs: [u32; 9],
    tour: &'static [u32],
}

fn base() -> Case {
    Case {
        capacity: 4,
        limits: vec![],
        window: vec![],
        legs: [0, 10, 12, 10, 0, 5, 12, 5, 0],
        tour: &[1, 2],
    }
}

fn case(change: impl FnOnce(&mut Case)) -> Vec<u32> {
    let mut case = base();
    change(&mut case);
    let mut words = vec![word(1, 3), word(2, case.capacity), word(3, 0)];
    words.extend(case.limits);
    words.extend([word(7, 2), word(8, 0)]);
    words.extend(case.window);
    words.extend([word(7, 2), word(8, 0)]);
    words.extend(case.legs.map(|leg| word(0xC, leg)));
    words.extend(case.tour.iter().map(|&call| word(0xE, call)));
    ended(words)
}

fn rest(earliest: u32, latest: u32) -> Vec<u32> {
    [earliest, latest, 4].map(|n| word(6, n)).to_vec()
}

fn window(ready: u32, due: u32) -> Vec<u32> {
    vec![word(9, ready), word(0xA, due)]
}

fn soft(ready: u32, due: u32, penalty: u32) -> Vec<u32> {
    [&window(ready, due)[..], &[word(0xB, penalty)]].concat()
}

/// In the order of their letters.
pub fn sheets() -> [Vec<u32>; 17] {
    let limit = |distance: u32| vec![word(4, distance)];
    [
        case(|_| ()),
        case(|c| c.capacity = 3),
        case(|c| c.capacity = 1),
        case(|c| c.tour = &[]),
        case(|c| (c.legs[5], c.legs[7]) = (22, 22)),
        case(|c| c.window = window(0, 10)),
        case(|c| c.window = window(0, 9)),
        case(|c| c.window = soft(0, 9, 3)),
        case(|c| c.limits = limit(27)),
        case(|c| c.limits = limit(26)),
        case(|c| c.limits = limit(23)),
        case(|c| (c.legs[3], c.limits) = (30, limit(27))),
        case(|c| c.limits = rest(20, 30)),
        case(|c| (c.limits, c.tour) = (rest(20, 30), &[1])),
        case(|c| c.limits = rest(5, 9)),
        case(|c| c.limits = rest(5, 10)),
        case(|c| (c.limits, c.window) = (rest(0, 30), soft(12, 13, 5))),
    ]
}
