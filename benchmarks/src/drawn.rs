//! Recipes drawn at random, over all that a recipe can say.
use crate::recipe::{Legs, Limit, Order, Recipe, Shut, Windows};
use crate::source::Source;

/// The recipe of this number; the same each time.
pub fn recipe(seed: u32, number: u32) -> Recipe {
    let seed = u64::from(seed) << 32 | u64::from(number);
    let mut source = Source::new(seed);
    let source = &mut source;
    for _ in 0..8 {
        source.below(2);
    }
    let places = source.one_of(&[2, 8, 32, 64, 64, 64]);
    let shut = shut(source);
    Recipe {
        seed,
        places,
        calls: calls(source),
        order: order(source),
        legs: legs(source),
        times: source.one_in(2),
        demand: source.one_of(&[0, 1, 40]),
        capacity: source.one_of(&[0, 1, 4, 40, 80, 160, 800, 20_000, 20_000, 20_000]),
        fixed: source.one_of(&[0, 50, 1_000, 1_000_000]),
        service: source.one_of(&[0, 10, 300]),
        windows: windows(source),
        penalties: source.one_of(&[0, 0, 0, 0, 1, 4]),
        rest: rest(source),
        distance: limit(source),
        duration: limit(source),
        shut,
        run: source.one_of(&[1, 2, 4, 8, 16, 32, 48, 61, 62]),
    }
}

fn calls(source: &mut Source) -> u32 {
    match source.below(4) {
        0 => 1 + source.below(63),
        1 => source.one_of(&[1, 2, 4, 8, 16, 32]),
        _ => 63,
    }
}

fn order(source: &mut Source) -> Order {
    match source.below(3) {
        0 => Order::AtRandom,
        1 => Order::InTurn,
        _ => Order::Nearest,
    }
}

fn legs(source: &mut Source) -> Legs {
    match source.below(5) {
        0 | 1 => Legs::Streets,
        2 => Legs::OneWay(source.one_of(&[2, 30, 300])),
        3 => Legs::Even(source.one_of(&[1, 10, 1_000])),
        _ => Legs::Line,
    }
}

fn windows(source: &mut Source) -> Windows {
    match source.below(6) {
        0..=2 => Windows::None,
        3 => Windows::Long(source.one_of(&[1, 30, 500, 5_000])),
        4 => Windows::UntilCalled,
        _ => Windows::NotLast,
    }
}

fn rest(source: &mut Source) -> Option<[u32; 3]> {
    let earliest = source.one_of(&[0, 200, 400, 5_000]);
    let latest = earliest + source.one_of(&[0, 10, 300, 60_000]);
    let rest = [earliest, latest, source.one_of(&[0, 30, 500])];
    source.one_in(3).then_some(rest)
}

fn limit(source: &mut Source) -> Limit {
    match source.below(8) {
        0 => Limit::At(source.one_of(&[100, 1_000, 5_000, 1_000_000])),
        1 => Limit::OfRuns,
        2 => Limit::BelowReversals,
        _ => Limit::None,
    }
}

fn shut(source: &mut Source) -> Option<(Shut, u32)> {
    let by = match source.below(6) {
        0 => Shut::Weight,
        1 => Shut::Window,
        2 => Shut::Distance,
        _ => return None,
    };
    Some((by, source.one_of(&[1, 2, 4, 16])))
}
