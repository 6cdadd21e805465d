//! Changes to a question: one number, or some numbers of one kind.
use crate::question::Question;
use crate::source::Source;
use crate::word::{kind, most, value, word, CLOSED};

/// The kinds of numbers that a sheet may have, and how often each is changed.
const KINDS: [u32; 24] = [
    0xC, 0xC, 0xC, 0xC, 0xC, 0xD, 0xD, 0xD, 0xD, 9, 9, 0xA, 0xA, 0xA, 8, 8, 7, 0xB, 0xB, 2, 3, 4,
    5, 6,
];

/// Another number of this kind: near the old one, one that stands elsewhere, or any.
fn other(source: &mut Source, kind: u32, old: u32, elsewhere: u32) -> u32 {
    let new = match source.below(8) {
        0 | 1 => old + 1 + source.below(20),
        2 | 3 => old.saturating_sub(1 + source.below(20)),
        4 => elsewhere,
        5 => source.below(2 * old + 10),
        6 => source.below(2_000),
        _ => [0, most(kind)][source.below(2) as usize],
    };
    new.min(most(kind))
}

/// The places of the words of a kind.
fn of_kind(words: &[u32], wanted: u32) -> Vec<usize> {
    let found = words.iter().enumerate().filter(|(_, &w)| kind(w) == wanted);
    found.map(|(at, _)| at).collect()
}

/// One number of the sheet, or a row of them: all of a kind, or every so many, with the same change.
fn number(source: &mut Source, words: &mut [u32]) {
    let wanted = source.one_of(&KINDS);
    let all = of_kind(words, wanted);
    let (Some(&at), Some(&elsewhere)) = (source.any(&all), source.any(&all)) else {
        return;
    };
    let new = other(source, wanted, value(words[at]), value(words[elsewhere]));
    let chosen: Vec<usize> = match source.below(8) {
        0 => all,
        1 => {
            let step = 1 + source.below(64) as usize;
            all.into_iter()
                .filter(|&one| one.abs_diff(at) % step == 0)
                .collect()
        }
        2 => {
            let length = 1 + source.below(64) as usize;
            all.into_iter()
                .filter(|&one| one >= at && one < at + length)
                .collect()
        }
        _ => vec![at],
    };
    for one in chosen {
        words[one] = word(wanted, new);
    }
}

/// A leg closed or opened, by distance and time.
fn road(source: &mut Source, words: &mut [u32]) {
    let (distances, times) = (of_kind(words, 0xC), of_kind(words, 0xD));
    let Some(which) = source.index(&distances) else {
        return;
    };
    let places = value(words[0]) as usize;
    let which = if source.one_in(2) {
        which / places * places
    } else {
        which
    };
    let shut = value(words[distances[which]]) == CLOSED;
    let legs = distances.get(which).into_iter().chain(times.get(which));
    for &at in legs {
        let new = if shut { 100 } else { CLOSED };
        words[at] = word(kind(words[at]), new);
    }
}

/// Two calls of the tour change places.
fn tour(source: &mut Source, words: &mut [u32]) {
    let calls = of_kind(words, 0xE);
    if let (Some(&one), Some(&other)) = (source.any(&calls), source.any(&calls)) {
        words.swap(one, other);
    }
}

/// A call of the runs given: two change places, some are turned around, or one becomes another.
fn given(source: &mut Source, places: u32, calls: &mut [u8]) {
    let (Some(one), Some(other)) = (source.index(calls), source.index(calls)) else {
        return;
    };
    match source.below(3) {
        0 => calls.swap(one, other),
        1 => calls[one.min(other)..=one.max(other)].reverse(),
        _ => calls[one] = 1 + source.below(places.max(2) - 1) as u8,
    }
}

/// A run end moves by one, goes away or comes in.
fn ends(source: &mut Source, calls: usize, ends: &mut Vec<u8>) {
    let Some(which) = source.index(ends) else {
        return;
    };
    match source.below(3) {
        0 => ends[which] = source.near(u32::from(ends[which])).min(calls as u32) as u8,
        1 if ends.len() > 1 => drop(ends.remove(which)),
        _ => ends.push(source.below(calls as u32 + 1) as u8),
    }
    ends.sort_unstable();
    if let Some(last) = ends.last_mut() {
        *last = calls as u8;
    }
    ends.truncate(crate::call::MOST);
}

/// The question with one to four changes.
pub fn changed(source: &mut Source, question: &Question) -> Question {
    let mut new = question.clone();
    for _ in 0..=source.below(4) * source.below(2) {
        let runs = !new.calls.is_empty();
        match source.below(12) {
            0 | 1 => road(source, &mut new.words),
            2 => tour(source, &mut new.words),
            3 | 4 if runs => given(source, value(new.words[0]), &mut new.calls),
            5 if runs => ends(source, new.calls.len(), &mut new.ends),
            _ => number(source, &mut new.words),
        }
    }
    new
}
