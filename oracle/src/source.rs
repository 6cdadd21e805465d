//! Pseudo-random numbers.

/// A xorshift generator.
pub struct Source(u64);

impl Source {
    /// Each seed gives other numbers.
    pub fn new(seed: u64) -> Source {
        // Odd times odd is odd: the state is never 0, which would stay 0.
        Source(0x9E37_79B9_7F4A_7C15_u64.wrapping_mul(seed.wrapping_mul(2) + 1))
    }

    pub fn below(&mut self, bound: u32) -> u32 {
        self.0 ^= self.0 << 13;
        self.0 ^= self.0 >> 7;
        self.0 ^= self.0 << 17;
        ((self.0 >> 11) % u64::from(bound)) as u32
    }

    pub fn one_in(&mut self, n: u32) -> bool {
        self.below(n) == 0
    }

    /// An index of the list, if it has any.
    pub fn index<T>(&mut self, list: &[T]) -> Option<usize> {
        let length = u32::try_from(list.len()).expect("a short list");
        (length > 0).then(|| self.below(length) as usize)
    }

    pub fn any<'a, T>(&mut self, list: &'a [T]) -> Option<&'a T> {
        self.index(list).map(|at| &list[at])
    }

    pub fn one_of(&mut self, numbers: &[u32]) -> u32 {
        numbers[self.below(numbers.len() as u32) as usize]
    }

    /// So many different numbers below `bound`, or all of them, in any order.
    pub fn some(&mut self, bound: u32, count: u32) -> Vec<u32> {
        let mut numbers: Vec<u32> = (0..bound).collect();
        for at in 0..numbers.len() {
            let other = at + self.below(bound - at as u32) as usize;
            numbers.swap(at, other);
        }
        numbers.truncate(count as usize);
        numbers
    }

    /// One less, the number itself, or one more.
    pub fn near(&mut self, number: u32) -> u32 {
        (number + self.below(3)).saturating_sub(1)
    }

    /// Below `bound`; one time in eight anywhere up to `most`, and then every other time `most` itself.
    pub fn mostly_below(&mut self, bound: u32, most: u32) -> u32 {
        if !self.one_in(8) {
            self.below(bound)
        } else if self.one_in(2) {
            most
        } else {
            self.below(most + 1)
        }
    }
}
