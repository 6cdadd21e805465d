//! The sheets of the tables, by name. What a recipe leaves open (calls, runs) the tables say.
use crate::recipe::{Legs, Limit, Order, Recipe, Shut, Windows, PLAIN};

pub type Kind = (&'static str, Recipe);

const WINDOWS: Recipe = Recipe {
    windows: Windows::Long(500),
    ..PLAIN
};
const BREAK: Option<[u32; 3]> = Some([400, 60_000, 30]);
const RESTED: Kind = (
    "break",
    Recipe {
        rest: BREAK,
        ..PLAIN
    },
);
const RESTED_WINDOWS: Kind = (
    "break and windows",
    Recipe {
        rest: BREAK,
        ..WINDOWS
    },
);
const RESTED_NARROW: Kind = (
    "narrow windows and break",
    Recipe {
        windows: Windows::Long(30),
        rest: Some([200, 260, 30]),
        ..PLAIN
    },
);
const EVEN: Recipe = Recipe {
    legs: Legs::Even(10),
    ..PLAIN
};
const LINE: Recipe = Recipe {
    legs: Legs::Line,
    order: Order::InTurn,
    ..PLAIN
};

#[rustfmt::skip]
pub const ORDINARY: [Kind; 8] = [
    ("plain", PLAIN),
    ("tight capacity", Recipe { capacity: 160, ..PLAIN }),
    ("windows", WINDOWS),
    ("soft windows", Recipe { penalties: 1, ..WINDOWS }),
    RESTED,
    RESTED_WINDOWS,
    ("limits", Recipe { distance: Limit::At(1_500), duration: Limit::At(2_000), ..PLAIN }),
    ("many drops", Recipe { shut: Some((Shut::Weight, 3)), ..WINDOWS }),
];

/// Adverse to whatever goes by legs and loads.
#[rustfmt::skip]
pub const LOADS: [Kind; 5] = [
    ("asymmetric", Recipe { legs: Legs::OneWay(100), ..PLAIN }),
    ("equal legs", Recipe { legs: Legs::Even(1), ..PLAIN }),
    ("nearest next", Recipe { order: Order::Nearest, ..PLAIN }),
    ("half too heavy", Recipe { shut: Some((Shut::Weight, 2)), ..PLAIN }),
    ("all too heavy", Recipe { shut: Some((Shut::Weight, 1)), ..PLAIN }),
];

/// Adverse to whatever goes by windows, break and limits.
#[rustfmt::skip]
pub const RULES: [Kind; 14] = [
    ("asymmetric, break and limits", Recipe {
        legs: Legs::OneWay(100), rest: BREAK, distance: Limit::At(15_000), duration: Limit::At(30_000), ..PLAIN
    }),
    ("asymmetric, limits just missed by reversals", Recipe {
        legs: Legs::OneWay(100), distance: Limit::BelowReversals, duration: Limit::BelowReversals, ..PLAIN
    }),
    ("narrow windows", Recipe { windows: Windows::Long(30), ..PLAIN }),
    RESTED_NARROW,
    ("break just missed", Recipe { rest: Some([400, 410, 30]), ..PLAIN }),
    ("half shut by windows", Recipe { shut: Some((Shut::Window, 2)), ..PLAIN }),
    ("half shut by windows, break", Recipe { shut: Some((Shut::Window, 2)), rest: BREAK, ..PLAIN }),
    ("half shut by distance", Recipe { shut: Some((Shut::Distance, 2)), ..PLAIN }),
    ("all shut by windows", Recipe { shut: Some((Shut::Window, 1)), ..PLAIN }),
    ("open until called", Recipe { windows: Windows::UntilCalled, ..PLAIN }),
    ("distance just missed by runs", Recipe { distance: Limit::OfRuns, ..EVEN }),
    ("duration just missed by runs", Recipe { duration: Limit::OfRuns, ..EVEN }),
    ("distance just missed by reversals", Recipe { distance: Limit::BelowReversals, ..PLAIN }),
    ("duration just missed by reversals", Recipe { duration: Limit::BelowReversals, ..PLAIN }),
];

/// Sheets with a break, which can be placed in more than one way.
#[rustfmt::skip]
pub const PLACED: [Kind; 4] = [
    ("break and soft windows", Recipe { rest: BREAK, penalties: 1, ..WINDOWS }),
    RESTED_WINDOWS,
    RESTED,
    RESTED_NARROW,
];

/// Every customer asks for one seat, and a run has so many.
const fn seats(capacity: u32) -> Recipe {
    Recipe {
        demand: 1,
        capacity,
        ..PLAIN
    }
}

pub const FULL_RUNS: [Kind; 4] = [
    ("1 seat", seats(1)),
    ("4 seats", seats(4)),
    ("16 seats", seats(16)),
    ("48 seats", seats(48)),
];

/// A run of 61 calls, along which another call costs less and less.
#[rustfmt::skip]
pub const FALLING: [Kind; 4] = [
    ("no rule", Recipe { run: 61, ..LINE }),
    ("the cheapest place fails", Recipe { run: 61, windows: Windows::NotLast, ..LINE }),
    ("all places fail, by windows", Recipe { run: 61, windows: Windows::UntilCalled, ..LINE }),
    ("all places fail, by distance", Recipe { run: 61, distance: Limit::OfRuns, ..LINE }),
];

#[rustfmt::skip]
pub const READ: [Kind; 3] = [
    ("no times", Recipe { times: false, ..PLAIN }),
    ("all kinds of words", Recipe {
        penalties: 1, rest: BREAK, distance: Limit::At(1_500), duration: Limit::At(2_000), ..WINDOWS
    }),
    ("two places", Recipe { places: 2, ..PLAIN }),
];

/// Runs as long as the tour, with a part of the customers shut.
#[rustfmt::skip]
pub const SHUT: [Kind; 5] = [
    ("none shut", PLAIN),
    ("1/4 shut by windows", Recipe { shut: Some((Shut::Window, 4)), ..PLAIN }),
    ("1/2 shut by windows", Recipe { shut: Some((Shut::Window, 2)), ..PLAIN }),
    ("1/4 shut by distance", Recipe { shut: Some((Shut::Distance, 4)), ..PLAIN }),
    ("1/2 shut by distance", Recipe { shut: Some((Shut::Distance, 2)), ..PLAIN }),
];
