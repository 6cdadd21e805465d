//! A sheet in words, taken to be an accepted one.
use crate::distance::DistanceMatrix;
use crate::evaluation::RouteLimits;
use crate::load::{self, Pair};
use crate::models::{Customer, TimeWindow, Vehicle, VehicleBreak};
use crate::word::{kind, value, CLOSED};

pub struct Sheet {
    /// As the Rust is given it.
    pub capacity: i32,
    /// The wheelchair places of a vehicle, and those that each place asks for.
    pub second_capacity: i32,
    pub second_demands: Vec<i32>,
    pub fixed: f64,
    pub limits: RouteLimits,
    pub customers: Vec<Customer>,
    /// With infinity for each closed leg, in both tables: so `split_tw` is given them, and it alone.
    pub distances: DistanceMatrix,
    pub tour: Vec<usize>,
}

/// The words not yet read.
struct Words<'a>(&'a [u32]);

impl Words<'_> {
    /// The value of the next word, if it has this kind.
    fn value_if(&mut self, wanted: u32) -> Option<u32> {
        let (&word, rest) = self.0.split_first()?;
        if kind(word) != wanted {
            return None;
        }
        self.0 = rest;
        Some(value(word))
    }

    /// The same as a float.
    fn next_if(&mut self, wanted: u32) -> Option<f64> {
        self.value_if(wanted).map(f64::from)
    }

    fn next(&mut self, kind: u32) -> f64 {
        self.next_if(kind).expect("a word of this kind")
    }

    /// The next number of a load, and that of the second load behind it, which is 0 where it is not said.
    fn pair(&mut self, kind: u32) -> Pair {
        let seats = self.next(kind);
        [seats, self.next_if(0).unwrap_or(0.0)].map(|number| number as i32)
    }

    /// The legs of this kind: a closed one is infinitely long, and takes as long.
    fn legs(&mut self, kind: u32) -> Vec<f64> {
        std::iter::from_fn(|| self.value_if(kind))
            .map(|leg| match leg {
                CLOSED => f64::INFINITY,
                leg => f64::from(leg),
            })
            .collect()
    }
}

impl Sheet {
    pub fn from_words(words: &[u32]) -> Sheet {
        let mut words = Words(words);
        let places = words.next(1) as usize;
        let held = words.pair(2);
        let fixed = words.next(3);
        let limits = RouteLimits {
            max_distance: words.next_if(4),
            max_duration: words.next_if(5),
            rest: words
                .next_if(6)
                .map(|earliest| VehicleBreak::new(earliest, words.next(6), words.next(6))),
        };
        let mut customers = vec![Customer::depot(0.0, 0.0)];
        let mut second_demands = vec![0];
        for id in 1..places {
            let asked = words.pair(7);
            customers.push(customer(&mut words, id, asked, held));
            second_demands.push(asked[1]);
        }
        let mut distances =
            DistanceMatrix::from_data(places, words.legs(0xC)).expect("a square table");
        let times = words.legs(0xD);
        if !times.is_empty() {
            distances = distances.with_travel_times(times).expect("a square table");
        }
        let tour = std::iter::from_fn(|| words.next_if(0xE).map(|c| c as usize)).collect();
        Sheet {
            capacity: load::capacity(held),
            second_capacity: held[1],
            second_demands,
            fixed,
            limits,
            customers,
            distances,
            tour,
        }
    }

    /// The number of a run's first leg without a road: 1 leaves the depot, one more than there are calls returns to it.
    pub fn closed_leg(&self, calls: &[usize]) -> Option<usize> {
        let stops = [&[0], calls, &[0]].concat();
        let closed = |leg: &[usize]| self.distances.get(leg[0], leg[1]).is_infinite();
        stops.windows(2).position(closed).map(|index| index + 1)
    }

    /// A vehicle with the sheet's capacity, fixed cost, limits and break.
    pub fn vehicle(&self) -> Vehicle {
        let mut vehicle = Vehicle::new(0, self.capacity).with_fixed_cost(self.fixed);
        if let Some(most) = self.limits.max_distance {
            vehicle = vehicle.with_max_distance(most);
        }
        if let Some(most) = self.limits.max_duration {
            vehicle = vehicle.with_max_duration(most);
        }
        match self.limits.rest {
            Some(rest) => vehicle.with_break(rest),
            None => vehicle,
        }
    }
}

/// A customer who asks for so much, of a vehicle that holds so much.
fn customer(words: &mut Words, id: usize, asked: Pair, held: Pair) -> Customer {
    let service = words.next(8);
    let mut customer = Customer::new(id, 0.0, 0.0, load::asked(asked, held), service);
    if let Some(ready) = words.next_if(9) {
        let window = TimeWindow::new(ready, words.next(0xA)).expect("a window");
        customer = customer.with_time_window(window);
    }
    match words.next_if(0xB) {
        Some(penalty) => customer.with_lateness_penalty(penalty).expect("a penalty"),
        None => customer,
    }
}
