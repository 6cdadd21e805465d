//! A run that `lizsomdur_reverse` goes over again and again: a pass finds one reversal that gains and is allowed, and
//! tests nearly all others, which gain and are not.
//!
//! The run calls at walkers in order, with travellers behind some of the last, and then at the walkers again. By
//! distance a walker's leg back is shorter than the one on, so that nearly every reversal gains; by time it is far
//! longer than the duration limit allows, which shows only at the end of the run. What is allowed is that a
//! traveller changes places with the walker before it, which gains a little. So it goes by one place in each pass,
//! up to the front of the run. There it saves time, with which the next traveller can set out.
use crate::call::MOST;
use crate::question::Question;
use crate::word::{ended, word};

const PLACES: usize = 64;
/// By distance: a walker's leg on, and the leg to a walker from the depot or a traveller.
const ON: usize = 1_000;
/// By time: a leg that no run has room for; what a traveller saves at the front; the room that there is before, and
/// what the first traveller takes of it on its way.
const BARRED: usize = 1_000_000;
const SAVED: usize = 100;
const ROOM: usize = 60;
const WAY: usize = 50;

/// So many travellers, the customers from 1 on; all other customers are walkers.
struct Runners(usize);

impl Runners {
    fn walkers(&self) -> std::ops::Range<usize> {
        self.0 + 1..PLACES
    }

    fn is_walker(&self, place: usize) -> bool {
        self.walkers().contains(&place)
    }

    /// Whether a leg goes from a walker to the next one, or from the last to the first.
    fn is_on(&self, from: usize, to: usize) -> bool {
        self.is_walker(from) && (to == from + 1 || (from + 1 == PLACES && to == self.0 + 1))
    }

    /// The walker behind which a traveller stands at first; the next traveller stands two walkers further on.
    fn rest(&self, traveller: usize) -> usize {
        PLACES - 1 - 2 * (self.0 - traveller)
    }

    /// A traveller costs the less, the earlier the walker is that it stands behind.
    fn distance(&self, from: usize, to: usize) -> usize {
        if self.is_on(from, to) || (from <= self.0 && self.is_walker(to)) {
            ON
        } else if self.is_walker(from) && to != 0 && !self.is_walker(to) {
            10 * from
        } else {
            0
        }
    }

    /// The first walker is the nearer, the more travellers stand before it. The way of a traveller along the walkers
    /// takes so long that as many have to stand there as set out before.
    fn time(&self, from: usize, to: usize) -> usize {
        if from <= self.0 && to == self.0 + 1 {
            SAVED * (self.0 - from)
        } else if from <= self.0 || to == 0 || self.is_on(from, to) {
            1
        } else if self.is_walker(to) {
            BARRED
        } else if from == self.rest(to) {
            1
        } else {
            SAVED * (to - 1) + WAY
        }
    }

    fn calls(&self) -> Vec<u8> {
        let behind = |walker| (1..=self.0).find(|&traveller| self.rest(traveller) == walker);
        let once = self
            .walkers()
            .flat_map(|walker| [walker].into_iter().chain(behind(walker)));
        let calls = once.chain(self.walkers().cycle());
        calls.take(MOST).map(|call| call as u8).collect()
    }
}

/// The run, with so many travellers, and its sheet.
pub fn question(travellers: usize) -> Question {
    let runners = Runners(travellers);
    let pairs = || (0..PLACES).flat_map(|from| (0..PLACES).map(move |to| (from, to)));
    let limit = SAVED * travellers + MOST + ROOM;
    let mut words = vec![
        word(1, PLACES as u32),
        word(2, 0),
        word(3, 0),
        word(5, limit as u32),
    ];
    words.extend([0, 1_000_000, 0].map(|time| word(6, time)));
    words.extend((1..PLACES).flat_map(|_| [word(7, 0), word(8, 0)]));
    words.extend(pairs().map(|(from, to)| word(0xC, runners.distance(from, to) as u32)));
    words.extend(pairs().map(|(from, to)| word(0xD, runners.time(from, to) as u32)));
    Question {
        calls: runners.calls(),
        ends: vec![MOST as u8],
        ..Question::of(ended(words))
    }
}
