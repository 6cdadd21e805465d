//! Random accepted sheets in words, of all mixes of features.
use crate::roads::close;
use crate::source::Source;
use crate::word::{ended, most, value, word};

/// How large a sheet's numbers may be: each is below the number here, or up to it.
struct Scale {
    demand: u32,
    capacity: u32,
    leg: u32,
    service: u32,
    /// Windows, break and limits lie within a few times this.
    day: u32,
    /// One customer in so many has a window.
    windows: u32,
    /// Capacity, fixed cost and penalty now and then lie anywhere in their range.
    whole_range: bool,
    /// Every word is there that may stand in a sheet.
    full: bool,
}

/// Numbers so small that they often meet, and that the checker can compute with.
const SMALL: Scale = Scale {
    demand: 5,
    capacity: 12,
    leg: 12,
    service: 3,
    day: 12,
    windows: 2,
    whole_range: false,
    full: false,
};

const MEDIUM: Scale = Scale {
    whole_range: true,
    ..SMALL
};

/// Up to six places and five calls.
pub fn small(source: &mut Source) -> Vec<u32> {
    let places = 1 + source.below(6);
    let calls = source.below(6);
    sheet(source, &SMALL, places, calls)
}

/// Two to ten places and one to nine calls.
pub fn medium(source: &mut Source) -> Vec<u32> {
    let places = 2 + source.below(9);
    let calls = 1 + source.below(9);
    sheet(source, &MEDIUM, places, calls)
}

/// Four to ten places, three calls or more, and every word that may stand in a sheet.
pub fn ruled(source: &mut Source) -> Vec<u32> {
    let scale = Scale {
        day: source.one_of(&[12, 40]),
        full: true,
        ..MEDIUM
    };
    let places = 4 + source.below(7);
    let calls = 3 + source.below(7);
    sheet(source, &scale, places, calls)
}

/// Small numbers, such that now and then a run of many calls, or of all, is legal.
fn roomy(source: &mut Source) -> Scale {
    Scale {
        capacity: source.one_of(&[12, 60, 400]),
        day: source.one_of(&[12, 120, 800, 800]),
        windows: source.one_of(&[2, 40]),
        ..MEDIUM
    }
}

/// Two to twelve places, all of them called at.
pub fn short(source: &mut Source) -> Vec<u32> {
    let scale = roomy(source);
    let places = 2 + source.below(11);
    sheet(source, &scale, places, places)
}

/// 24 to 64 places, nearly all of them called at.
pub fn long(source: &mut Source) -> Vec<u32> {
    let scale = roomy(source);
    let most = source.one_of(&[32, 32, 32, 64]);
    let places = 24 + source.below(most - 23);
    let calls = places - 1 - source.below(4);
    sheet(source, &scale, places, calls)
}

/// Up to 64 places, up to 63 calls, and numbers of the whole range.
pub fn large(source: &mut Source) -> Vec<u32> {
    let places = 1 + source.below(64);
    let calls = 32 + source.below(32);
    let scale = wide(source, false);
    sheet(source, &scale, places, calls)
}

/// The longest sheet: 64 places, 63 calls, and every word that may stand there.
pub fn full(source: &mut Source) -> Vec<u32> {
    let scale = wide(source, true);
    sheet(source, &scale, 64, 63)
}

/// Legs in tens, thousands, or of the whole range, a day of one leg or of many, and many windows or few.
fn wide(source: &mut Source, full: bool) -> Scale {
    let leg = source.one_of(&[30, 1_000, most(0xC) + 1]);
    Scale {
        demand: most(7) + 1,
        capacity: source.one_of(&[80_000, most(2) + 1]),
        leg,
        service: source.one_of(&[10, 1_000, leg]),
        day: (leg * source.one_of(&[1, 8, 64])).min(most(5)),
        windows: source.one_of(&[2, 200]),
        whole_range: true,
        full,
    }
}

/// A number of this kind below `bound`, or now and then of its whole range.
fn number(source: &mut Source, scale: &Scale, kind: u32, bound: u32) -> u32 {
    let value = if scale.whole_range {
        source.mostly_below(bound, most(kind))
    } else {
        source.below(bound)
    };
    word(kind, value)
}

/// One sheet in four has wheelchair places; of these one in eight has no second capacity, which is then 0. One in four has closed legs.
fn sheet(source: &mut Source, scale: &Scale, places: u32, calls: u32) -> Vec<u32> {
    let second = scale.full || source.one_in(4);
    let mut words = vec![word(1, places)];
    words.push(number(source, scale, 2, scale.capacity));
    if second && (scale.full || !source.one_in(8)) {
        let capacity = value(number(source, scale, 2, scale.capacity));
        words.push(word(0, capacity));
    }
    words.push(number(source, scale, 3, 10));
    limits(source, scale, &mut words);
    for _ in 1..places {
        customer(source, scale, second, &mut words);
    }
    table(source, scale, places, 0xC, &mut words);
    if scale.full || source.one_in(3) {
        table(source, scale, places, 0xD, &mut words);
    }
    let tour = source.some(places - 1, calls);
    words.extend(tour.iter().map(|&index| word(0xE, 1 + index)));
    if source.one_in(4) {
        close(source, &mut words);
    }
    ended(words)
}

fn limits(source: &mut Source, scale: &Scale, words: &mut Vec<u32>) {
    let mut put = |kind: u32, number: u32| words.push(word(kind, number.min(most(kind))));
    if scale.full || source.one_in(3) {
        put(4, scale.day + source.below(3 * scale.day));
    }
    if scale.full || source.one_in(3) {
        put(5, scale.day + source.below(4 * scale.day));
    }
    if scale.full || source.one_in(2) {
        let earliest = source.below(2 * scale.day);
        put(6, earliest);
        put(6, earliest + source.below(scale.day + 3));
        put(6, source.below(scale.leg / 2));
    }
}

/// With a second demand or, where the sheet has such, every other time without one.
fn customer(source: &mut Source, scale: &Scale, second: bool, words: &mut Vec<u32>) {
    words.push(word(7, source.below(scale.demand)));
    if second && (scale.full || source.one_in(2)) {
        words.push(word(0, source.below(scale.demand)));
    }
    words.push(word(8, source.below(scale.service)));
    if scale.full || source.one_in(scale.windows) {
        let ready = source.below(scale.day + 3);
        let due = ready + source.below(scale.day);
        words.push(word(9, ready.min(most(9))));
        words.push(word(0xA, due.min(most(0xA))));
    }
    if scale.full || source.one_in(3) {
        words.push(number(source, scale, 0xB, 4));
    }
}

/// A leg table by rows. One in three is mirrored: each way back is as long as the way there.
fn table(source: &mut Source, scale: &Scale, places: u32, kind: u32, words: &mut Vec<u32>) {
    let n = places as usize;
    let mut legs: Vec<u32> = (0..n * n).map(|_| source.below(scale.leg)).collect();
    if source.one_in(3) {
        for from in 0..n {
            for to in 0..from {
                legs[to * n + from] = legs[from * n + to];
            }
        }
    }
    words.extend(legs.iter().map(|&leg| word(kind, leg)));
}
