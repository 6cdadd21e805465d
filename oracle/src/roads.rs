//! Sheets with legs that can't be driven.
use crate::edges::all;
use crate::source::Source;
use crate::word::{kind, value, word, CLOSED};

/// Closes legs of a sheet, in both tables alike: a few of those that its tour can use and of any others, or, one time in eight, one leg in three. The end of the sheet may be missing.
pub fn close(source: &mut Source, words: &mut [u32]) {
    let places = value(words[0]) as usize;
    let closed = if source.one_in(8) {
        (0..places * places).filter(|_| source.one_in(3)).collect()
    } else {
        a_few(source, places, &all(words, 0xE))
    };
    for table in [0xC, 0xD] {
        let Some(first) = words.iter().position(|&w| kind(w) == table) else {
            continue;
        };
        for &leg in &closed {
            words[first + leg] = word(table, CLOSED);
        }
    }
}

/// The indices of some legs, the way back of every other among them.
fn a_few(source: &mut Source, places: usize, tour: &[u32]) -> Vec<usize> {
    let mut legs = Vec::new();
    for _ in 0..source.one_of(&[1, 1, 2, 3, 5, 8]) {
        for (from, to) in drawn(source, places, tour) {
            legs.push(from * places + to);
            if source.one_in(2) {
                legs.push(to * places + from);
            }
        }
    }
    legs
}

/// A leg between two calls of the tour, between the depot and a call, from a place to itself or any other; or now and then all legs to a place.
fn drawn(source: &mut Source, places: usize, tour: &[u32]) -> Vec<(usize, usize)> {
    let any = |source: &mut Source| source.below(places as u32) as usize;
    let one = match (source.below(8), source.index(tour)) {
        (0..3, Some(at)) if at > 0 => (tour[at - 1] as usize, tour[at] as usize),
        (3, Some(at)) => (0, tour[at] as usize),
        (4, Some(at)) => (tour[at] as usize, 0),
        (5, _) => {
            let place = if source.one_in(2) { 0 } else { any(source) };
            (place, place)
        }
        (6, _) if source.one_in(4) => {
            let to = any(source);
            return (0..places).map(|from| (from, to)).collect();
        }
        _ => (any(source), any(source)),
    };
    vec![one]
}
