//! Sheets of which cuttings are marked: of all sizes, and with rules that small changes of a plan break.
use crate::random;
use crate::source::Source;
use crate::word::{ended, kind, most, value, word};

/// An accepted sheet. Of two hundred 20 are small, 40 medium, 70 have many rules and 45 narrow windows, 20 are long, four large and one full.
pub fn sheet(source: &mut Source, number: usize) -> Vec<u32> {
    match number % 40 {
        0..4 => random::small(source),
        4..12 => random::medium(source),
        12..26 => loosened(source),
        26..35 => narrow(source),
        35..39 => random::long(source),
        _ if number % 200 == 199 => random::full(source),
        _ => random::large(source),
    }
}

/// A medium sheet with every rule but some, so that the others are come to.
fn loosened(source: &mut Source) -> Vec<u32> {
    let mut words = random::ruled(source);
    words.pop();
    for (at, kind) in [(1, 2), (2, 0)] {
        if !source.one_in(4) {
            words[at] = word(kind, most(2));
        }
    }
    for kinds in [&[0][..], &[4], &[5], &[6], &[9, 0xA], &[0xB], &[0xD]] {
        if source.one_in(2) {
            words.retain(|&w| !kinds.contains(&kind(w)));
        }
    }
    ended(words)
}

/// A medium sheet on which a break can make a bus late, as in bench case q: windows are narrow, most have a penalty, runs are dear, and nothing but windows and break stands in their way.
pub fn narrow(source: &mut Source) -> Vec<u32> {
    let mut words = random::ruled(source);
    words.pop();
    let timed = source.one_in(2);
    words.retain(|&w| match kind(w) {
        0 | 4 | 5 => false,
        0xB => !source.one_in(4),
        0xD => timed,
        _ => true,
    });
    let earliest = source.below(20);
    let latest = earliest + source.below(50);
    words[1] = word(2, most(2));
    words[2] = word(3, source.below(200));
    let rest = [earliest, latest, source.below(12)];
    words.splice(3..6, rest.map(|number| word(6, number)));
    for at in 1..words.len() {
        if kind(words[at]) == 0xA {
            words[at] = word(0xA, value(words[at - 1]) + source.below(3));
        }
    }
    ended(words)
}
