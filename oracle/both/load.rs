//! Loads in two measures for code that adds demands to an `i32` and asks whether that is above capacity.
//!
//! Such an `i32` is the number of a sum in a list: 0 is that of nobody, and `OVER` stands for all sums that are more than a vehicle holds, in one measure or in both. Capacity is the number below `OVER`, so that a load is above it exactly when it does not fit.
use std::cell::RefCell;
use std::cmp::Ordering;
use std::iter::Sum;
use std::ops::{Add, AddAssign};

/// Seats and wheelchair places.
pub type Pair = [i32; 2];

const OVER: i32 = i32::MAX;

thread_local! {
    /// The sums by their numbers, from 1 on.
    static SUMS: RefCell<Vec<Pair>> = const { RefCell::new(Vec::new()) };
}

/// What a customer asks for, beside what a vehicle holds.
#[derive(Clone, Copy, Debug)]
pub struct Demand {
    asked: Pair,
    held: Pair,
}

pub fn asked(asked: Pair, held: Pair) -> Demand {
    Demand { asked, held }
}

/// The capacity of a vehicle, whatever it holds. The sums of another sheet are forgotten.
pub fn capacity(_: Pair) -> i32 {
    SUMS.take();
    OVER - 1
}

impl Add<Demand> for i32 {
    type Output = i32;

    fn add(self, demand: Demand) -> i32 {
        let Demand { asked, held } = demand;
        let [seats, wheelchairs] = match self {
            OVER => return OVER,
            0 => [0, 0],
            number => SUMS.with_borrow(|sums| sums[number as usize - 1]),
        };
        let sum = [seats + asked[0], wheelchairs + asked[1]];
        if sum[0] > held[0] || sum[1] > held[1] {
            return OVER;
        }
        SUMS.with_borrow_mut(|sums| {
            sums.push(sum);
            sums.len() as i32
        })
    }
}

impl AddAssign<Demand> for i32 {
    fn add_assign(&mut self, demand: Demand) {
        *self = *self + demand;
    }
}

impl Sum<Demand> for i32 {
    fn sum<I: Iterator<Item = Demand>>(demands: I) -> i32 {
        demands.fold(0, |load, demand| load + demand)
    }
}

/// A demand beside a capacity is the load of that call alone.
impl PartialEq<i32> for Demand {
    fn eq(&self, load: &i32) -> bool {
        0 + *self == *load
    }
}

impl PartialOrd<i32> for Demand {
    fn partial_cmp(&self, load: &i32) -> Option<Ordering> {
        (0 + *self).partial_cmp(load)
    }
}

/// Beside another demand it is a number of seats: by these elimination takes the calls of a run in turn.
impl Ord for Demand {
    fn cmp(&self, other: &Demand) -> Ordering {
        self.asked[0].cmp(&other.asked[0])
    }
}

impl PartialOrd for Demand {
    fn partial_cmp(&self, other: &Demand) -> Option<Ordering> {
        Some(self.cmp(other))
    }
}

impl PartialEq for Demand {
    fn eq(&self, other: &Demand) -> bool {
        self.cmp(other) == Ordering::Equal
    }
}

impl Eq for Demand {}
