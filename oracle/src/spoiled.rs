//! Lists of a cutting with something wrong, or right after all.
use crate::marker::Cutting;
use crate::source::Source;
use crate::word::value;

/// One more than a list of calls or of run ends may have.
const TOO_MANY: usize = 129;

/// The largest number that a byte holds.
const LARGEST: usize = 255;

/// The lists of a cutting of this sheet with one thing changed, or two.
pub fn spoil(source: &mut Source, sheet: &[u32], cutting: &mut Cutting) {
    for _ in 0..1 + source.below(2) {
        match source.below(3) {
            0 => spoil_calls(source, value(sheet[0]) as usize, cutting),
            1 => spoil_ends(source, cutting),
            _ => spoil_places(source, cutting),
        }
    }
}

/// 127 to 130.
fn many(source: &mut Source) -> usize {
    TOO_MANY - 2 + source.below(4) as usize
}

/// The largest number of a byte, or one that differs from the given one in its seventh or eighth bit alone.
fn other(source: &mut Source, number: usize) -> usize {
    match source.below(4) {
        0 | 1 => LARGEST,
        2 => number ^ 0x40,
        _ => number ^ 0x80,
    }
}

/// A call that is no customer, many calls, or one call fewer than the run ends say.
fn spoil_calls(source: &mut Source, places: usize, cutting: &mut Cutting) {
    let Cutting { calls, ends, .. } = cutting;
    let Some(at) = source.index(calls) else {
        return calls.push(source.below(2) as usize);
    };
    match source.below(6) {
        0 => calls[at] = 0,
        1 => calls[at] = places,
        2 => calls[at] = other(source, calls[at]),
        3 | 4 => {
            calls.resize(many(source), calls[at]);
            if let Some(end) = ends.last_mut() {
                *end = calls.len();
            }
        }
        _ => drop(calls.remove(at)),
    }
}

/// An end elsewhere, two in the other order, one again, one fewer, or many ends.
fn spoil_ends(source: &mut Source, cutting: &mut Cutting) {
    let Cutting { ends, places, .. } = cutting;
    let Some(at) = source.index(ends) else {
        return ends.push(0);
    };
    match source.below(6) {
        0 => {
            ends[at] = (ends[at] + source.below(3) as usize)
                .saturating_sub(1)
                .min(LARGEST)
        }
        1 => ends[at] = other(source, ends[at]),
        2 => ends.swap(at, at.saturating_sub(1)),
        3 => {
            ends.insert(at, ends[at]);
            places.push(0);
        }
        4 => drop(ends.remove(at)),
        _ => {
            ends.resize(many(source), ends[at]);
            places.resize(ends.len(), 0);
        }
    }
}

/// Fewer break places than there are, more, or one that no run has.
fn spoil_places(source: &mut Source, cutting: &mut Cutting) {
    let places = &mut cutting.places;
    match (source.index(places), source.below(4)) {
        (Some(at), 0 | 1) => places.truncate(at),
        (Some(at), 2) => places[at] = other(source, places[at]),
        _ => places.resize(places.len() + 1 + source.below(3) as usize, TOO_MANY),
    }
}
