//! Words: the top four bits are the kind, the rest the value.

pub fn word(kind: u32, value: u32) -> u32 {
    (kind << 28) | value
}

pub fn kind(word: u32) -> u32 {
    word >> 28
}

pub fn value(word: u32) -> u32 {
    word & 0x0FFF_FFFF
}

/// In a leg table: there is no road.
pub const CLOSED: u32 = 0x0FFF_FFFF;

/// Whether a word is a leg without a road, by distance or by time.
pub fn is_closed(word: u32) -> bool {
    [0xC, 0xD].contains(&kind(word)) && value(word) == CLOSED
}

/// Whether an accepted sheet has a leg without a road.
pub fn has_closed(words: &[u32]) -> bool {
    words.iter().any(|&w| is_closed(w))
}

/// The end of the kind's range.
pub fn most(kind: u32) -> u32 {
    match kind {
        1 => 64,
        2 => 1_000_000,
        7 => 32_767,
        0xB => 1_000,
        0xE => 63,
        _ => 10_000_000,
    }
}

/// The end of the range of the word at this index: a second capacity or demand has that of the first, which stands before it.
pub fn most_at(words: &[u32], at: usize) -> u32 {
    match kind(words[at]) {
        0 if at > 0 => most(kind(words[at - 1])),
        kind => most(kind),
    }
}

/// The index of the second capacity.
pub fn second_capacity(words: &[u32]) -> Option<usize> {
    (kind(words[2]) == 0).then_some(2)
}

/// Whether wheelchair places are said anywhere on an accepted sheet.
pub fn has_second(words: &[u32]) -> bool {
    words.iter().any(|&w| kind(w) == 0)
}

/// The same sheet without limits, break and windows.
pub fn unconstrained(words: &[u32]) -> Vec<u32> {
    let before = words[..words.len() - 1].iter().copied();
    ended(
        before
            .filter(|&w| ![4, 5, 6, 9, 0xA].contains(&kind(w)))
            .collect(),
    )
}

/// An accepted sheet with seats and wheelchair places exchanged, in demands and capacities.
pub fn exchanged(words: &[u32]) -> Vec<u32> {
    let mut turned = Vec::new();
    for (at, &first) in words[..words.len() - 1].iter().enumerate() {
        match kind(first) {
            0 => (),
            2 | 7 => {
                let second = Some(words[at + 1]).filter(|&next| kind(next) == 0);
                turned.push(word(kind(first), second.map_or(0, value)));
                turned.push(word(0, value(first)));
            }
            _ => turned.push(first),
        }
    }
    ended(turned)
}

/// The words before it, and the word that ends a sheet.
pub fn ended(mut words: Vec<u32>) -> Vec<u32> {
    words.push(word(0xF, words.len() as u32));
    words
}

/// Little-endian, as in a file.
pub fn bytes(words: &[u32]) -> Vec<u8> {
    words.iter().flat_map(|w| w.to_le_bytes()).collect()
}
