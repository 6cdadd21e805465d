//! Sheets on which a fault of a cutting is just a fault, or just none.
use crate::marker::{
    Verdict, BREAK_MISSING, BREAK_TOO_LATE, OVERLOAD, TOO_FAR, TOO_LONG, WHEELCHAIR_OVERLOAD,
    WINDOW_MISSED,
};
use crate::source::Source;
use crate::word::{kind, most_at, second_capacity, word};

/// The sheet with the number that a fault names as its limit moved to the value above that, or to one below or above the value.
pub fn at_fault(source: &mut Source, words: &[u32], fault: &Verdict) -> Option<Vec<u32>> {
    let (number, values) = fault;
    let [.., value, _] = values[..] else {
        return None;
    };
    let first = |wanted: u32| words.iter().position(|&w| kind(w) == wanted);
    let at = match *number {
        OVERLOAD => first(2)?,
        BREAK_TOO_LATE => first(6)? + 1,
        WINDOW_MISSED => due(words, values[2] as usize)?,
        BREAK_MISSING => first(6)?,
        TOO_FAR => first(4)?,
        TOO_LONG => first(5)?,
        WHEELCHAIR_OVERLOAD => second_capacity(words)?,
        _ => return None,
    };
    let limit = source.near(u32::try_from(value).ok()?);
    let mut words = words.to_vec();
    words[at] = word(kind(words[at]), limit.min(most_at(&words, at)));
    Some(words)
}

/// The index of the word that says when the customer is due.
fn due(words: &[u32], customer: usize) -> Option<usize> {
    let mut records = (0..words.len()).filter(|&at| kind(words[at]) == 7);
    let record = records.nth(customer - 1)?;
    (record..words.len()).find(|&at| kind(words[at]) == 0xA)
}
