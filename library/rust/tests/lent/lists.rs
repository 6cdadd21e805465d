//! What each function of the library is lent, as it stands before and after a call.
use crate::{slices, Placement};
use std::fmt;

/// What stands in lent memory before a call; no answer has these numbers.
pub const OLD: usize = 77_777;
pub const OLD_BYTE: u8 = 0xAA;
pub const OLD_FLOAT: f64 = -7.5;

/// A list, with memory behind it that is not lent.
#[derive(Clone, PartialEq)]
pub struct Lent<T> {
    memory: Vec<T>,
    length: usize,
}

/// The numbers up to those that are all the same to the end.
impl<T: fmt::Debug + PartialEq> fmt::Debug for Lent<T> {
    fn fmt(&self, f: &mut fmt::Formatter) -> fmt::Result {
        let front = self
            .memory
            .iter()
            .rposition(|x| Some(x) != self.memory.last());
        let (front, rest) = self.memory.split_at(front.map_or(0, |last| last + 1));
        write!(f, "{front:?}, then {} times {:?}", rest.len(), rest[0])
    }
}

impl<T: Copy> Lent<T> {
    pub fn new(old: T, length: usize) -> Lent<T> {
        let memory = vec![old; length + 8];
        Lent { memory, length }
    }

    fn lent(&mut self) -> &mut [T] {
        &mut self.memory[..self.length]
    }

    /// The same memory with these numbers at its front.
    pub fn fronted(&self, front: &[T]) -> Lent<T> {
        let memory = [front, &self.memory[front.len()..]].concat();
        Lent {
            memory,
            length: self.length,
        }
    }
}

#[derive(Clone, Debug, PartialEq)]
pub struct Planned {
    pub served: Lent<u8>,
    pub run_ends: Lent<u8>,
    pub break_places: Lent<u8>,
    pub break_starts: Lent<f64>,
    pub dropped: Lent<u8>,
    pub counts: [usize; 3],
    pub totals: [f64; 2],
    pub word: usize,
}

impl Planned {
    pub fn new(lengths: [usize; 5]) -> Planned {
        Planned {
            served: Lent::new(OLD_BYTE, lengths[0]),
            run_ends: Lent::new(OLD_BYTE, lengths[1]),
            break_places: Lent::new(OLD_BYTE, lengths[2]),
            break_starts: Lent::new(OLD_FLOAT, lengths[3]),
            dropped: Lent::new(OLD_BYTE, lengths[4]),
            counts: [OLD; 3],
            totals: [OLD_FLOAT; 2],
            word: OLD,
        }
    }

    /// What `lizsomdur_plan` or `lizsomdur_plan_least` returns, and what it leaves.
    pub fn after(mut self, placement: Placement, sheet: &[u8]) -> (u32, Planned) {
        let number = slices::plan(
            placement,
            sheet,
            self.served.lent(),
            self.run_ends.lent(),
            self.break_places.lent(),
            self.break_starts.lent(),
            self.dropped.lent(),
            &mut self.counts,
            &mut self.totals,
            &mut self.word,
        );
        (number, self)
    }
}

#[derive(Clone, Debug, PartialEq)]
pub struct Judged {
    pub word: usize,
    pub verdict: u32,
    pub values: [f64; 5],
}

impl Judged {
    pub fn new() -> Judged {
        Judged {
            word: OLD,
            verdict: OLD as u32,
            values: [OLD_FLOAT; 5],
        }
    }

    /// What `lizsomdur_mark` or `lizsomdur_mark_least` returns, and what it leaves.
    pub fn after(
        mut self,
        placement: Placement,
        sheet: &[u8],
        calls: &[u8],
        ends: &[u8],
        places: &[u8],
    ) -> (u32, Judged) {
        let number = slices::mark(
            placement,
            sheet,
            calls,
            ends,
            places,
            &mut self.word,
            &mut self.verdict,
            &mut self.values,
        );
        (number, self)
    }
}

#[derive(Clone, Debug, PartialEq)]
pub struct Reversed {
    pub improved: Lent<u8>,
    pub word: usize,
    pub distance: f64,
}

impl Reversed {
    pub fn new(length: usize) -> Reversed {
        Reversed {
            improved: Lent::new(OLD_BYTE, length),
            word: OLD,
            distance: OLD_FLOAT,
        }
    }

    /// What `lizsomdur_reverse` returns, and what it leaves.
    pub fn after(mut self, sheet: &[u8], run: &[u8]) -> (u32, Reversed) {
        let improved = self.improved.lent();
        let number = slices::reverse(sheet, run, improved, &mut self.word, &mut self.distance);
        (number, self)
    }
}

#[derive(Clone, Debug, PartialEq)]
pub struct Left {
    pub calls: Lent<u8>,
    pub ends: Lent<u8>,
    pub word: usize,
    pub counts: [usize; 2],
}

impl Left {
    pub fn new(calls: usize, ends: usize) -> Left {
        Left {
            calls: Lent::new(OLD_BYTE, calls),
            ends: Lent::new(OLD_BYTE, ends),
            word: OLD,
            counts: [OLD; 2],
        }
    }

    /// What `lizsomdur_eliminate` returns, and what it leaves.
    pub fn after(mut self, sheet: &[u8], calls: &[u8], ends: &[u8]) -> (u32, Left) {
        let number = slices::eliminate(
            sheet,
            calls,
            ends,
            self.calls.lent(),
            self.ends.lent(),
            &mut self.word,
            &mut self.counts,
        );
        (number, self)
    }
}

#[derive(Clone, Debug, PartialEq)]
pub struct Timed {
    pub times: Lent<f64>,
    pub loads: Lent<u64>,
    pub violations: Lent<u8>,
    pub figures: Lent<f64>,
    pub counts: [usize; 3],
    pub totals: [f64; 5],
    pub word: usize,
}

impl Timed {
    pub fn new([times, loads, violations, figures]: [usize; 4]) -> Timed {
        Timed {
            times: Lent::new(OLD_FLOAT, times),
            loads: Lent::new(OLD as u64, loads),
            violations: Lent::new(OLD_BYTE, violations),
            figures: Lent::new(OLD_FLOAT, figures),
            counts: [OLD; 3],
            totals: [OLD_FLOAT; 5],
            word: OLD,
        }
    }

    /// What `lizsomdur_visits` returns, and what it leaves.
    pub fn after(mut self, sheet: &[u8], run: &[u8], place: usize) -> (u32, Timed) {
        let number = slices::visits(
            sheet,
            run,
            place,
            self.times.lent(),
            self.loads.lent(),
            self.violations.lent(),
            self.figures.lent(),
            &mut self.counts,
            &mut self.totals,
            &mut self.word,
        );
        (number, self)
    }
}
