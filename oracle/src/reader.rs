//! Whether bytes are an accepted sheet in words; if not, the refusal's number and word. Written from the scope document and the requests alone.
use crate::word::{kind, most, value, CLOSED};

/// What the words so far say.
#[derive(Default)]
struct Seen {
    /// How many words there are of each kind.
    counts: [usize; 16],
    words: usize,
    places: usize,
    /// Kind and value of the last word.
    last: Option<(u32, u32)>,
    /// The distances so far.
    distances: Vec<u32>,
    /// The customers called so far.
    called: Vec<u32>,
}

/// A refusal: number and word index from 0.
pub type Refusal = (u32, usize);

/// The words of the file, or its refusal.
pub fn words(bytes: &[u8]) -> Result<Vec<u32>, Refusal> {
    let chunks = bytes.chunks_exact(4);
    let left_over = !chunks.remainder().is_empty();
    let words: Vec<u32> = chunks
        .map(|b| u32::from_le_bytes([b[0], b[1], b[2], b[3]]))
        .collect();
    let mut seen = Seen::default();
    for (index, &word) in words.iter().enumerate() {
        if let Some(number) = seen.fault(kind(word), value(word)) {
            return Err((number, index));
        }
        if kind(word) == 0xF {
            return match index + 1 < words.len() || left_over {
                true => Err((3, index + 1)),
                false => Ok(words),
            };
        }
        seen.take(kind(word), value(word));
    }
    Err((12, words.len()))
}

impl Seen {
    fn take(&mut self, kind: u32, value: u32) {
        if self.words == 0 {
            self.places = value as usize;
        }
        match kind {
            0xC => self.distances.push(value),
            0xE => self.called.push(value),
            _ => (),
        }
        self.counts[kind as usize] += 1;
        self.words += 1;
        self.last = Some((kind, value));
    }

    fn count(&self, kind: u32) -> usize {
        self.counts[kind as usize]
    }

    /// The number that refuses the next word.
    fn fault(&self, kind: u32, value: u32) -> Option<u32> {
        if !self.next_kinds().contains(&kind) {
            Some(11)
        } else if !self.in_range(kind, value) {
            Some(1)
        } else if kind == 0xE && self.called.contains(&value) {
            Some(21)
        } else if self.pair_falls(kind, value) {
            Some(2)
        } else if kind == 0xD && self.closed_apart(value) {
            Some(22)
        } else if kind == 0xF && value as usize != self.words {
            Some(3)
        } else {
            None
        }
    }

    /// The kinds that may stand next.
    fn next_kinds(&self) -> Vec<u32> {
        let legs = self.places * self.places;
        match self.last.map(|(kind, _)| kind) {
            None => vec![1],
            Some(1) => vec![2],
            Some(2) => vec![0, 3],
            Some(0) if self.count(7) == 0 => vec![3],
            Some(0) => vec![8],
            Some(3) => self.after_head(&[4, 5, 6]),
            Some(4) => self.after_head(&[5, 6]),
            Some(5) => self.after_head(&[6]),
            Some(6) if self.count(6) < 3 => vec![6],
            Some(6) => self.after_head(&[]),
            Some(7) => vec![0, 8],
            Some(8) => self.after_customer(&[9, 0xB]),
            Some(9) => vec![0xA],
            Some(0xA) => self.after_customer(&[0xB]),
            Some(0xB) => self.after_customer(&[]),
            Some(0xC) if self.count(0xC) < legs => vec![0xC],
            Some(0xC) => vec![0xD, 0xE, 0xF],
            Some(0xD) if self.count(0xD) < legs => vec![0xD],
            _ => vec![0xE, 0xF],
        }
    }

    /// Past the head come the customers, and without customers the distances.
    fn after_head(&self, also: &[u32]) -> Vec<u32> {
        [also, &[if self.places > 1 { 7 } else { 0xC }]].concat()
    }

    fn after_customer(&self, also: &[u32]) -> Vec<u32> {
        let more = self.count(7) + 1 < self.places;
        [also, &[if more { 7 } else { 0xC }]].concat()
    }

    fn in_range(&self, kind: u32, value: u32) -> bool {
        match kind {
            1 => (1..=most(1)).contains(&value),
            0xE => value >= 1 && (value as usize) < self.places,
            0xF => true,
            0 => self.last.is_some_and(|(first, _)| value <= most(first)),
            0xC | 0xD if value == CLOSED => true,
            _ => value <= most(kind),
        }
    }

    /// Whether the next time is closed and the distance of the same leg is not, or the other way round.
    fn closed_apart(&self, value: u32) -> bool {
        let distance = self.distances[self.count(0xD)];
        (value == CLOSED) != (distance == CLOSED)
    }

    /// Due below ready, or latest below earliest.
    fn pair_falls(&self, kind: u32, value: u32) -> bool {
        let later = kind == 0xA || kind == 6 && self.count(6) == 1;
        later && self.last.is_some_and(|(_, earlier)| value < earlier)
    }
}
