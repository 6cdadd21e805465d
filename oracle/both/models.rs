//! The models' modules, with the given customer but for its demand.
mod customer;
mod route;
mod solution;
mod vehicle;

pub use customer::TimeWindow;
pub use route::*;
pub use solution::*;
pub use vehicle::*;

use crate::load::{asked, Demand};
use std::ops::Deref;

#[derive(Debug, Clone)]
pub struct Customer {
    given: customer::Customer,
    demand: Demand,
}

impl Customer {
    pub fn new(id: usize, x: f64, y: f64, demand: Demand, service: f64) -> Customer {
        let given = customer::Customer::new(id, x, y, 0, service);
        Customer { given, demand }
    }

    pub fn depot(x: f64, y: f64) -> Customer {
        let given = customer::Customer::depot(x, y);
        let demand = asked([0, 0], [0, 0]);
        Customer { given, demand }
    }

    pub fn with_time_window(mut self, window: TimeWindow) -> Customer {
        self.given = self.given.with_time_window(window);
        self
    }

    pub fn with_lateness_penalty(mut self, penalty: f64) -> Option<Customer> {
        self.given = self.given.with_lateness_penalty(penalty)?;
        Some(self)
    }

    pub fn demand(&self) -> Demand {
        self.demand
    }

    pub fn service_duration(&self) -> f64 {
        self.given.service_duration()
    }

    pub fn lateness_penalty(&self) -> Option<f64> {
        self.given.lateness_penalty()
    }
}

/// All else is as given.
impl Deref for Customer {
    type Target = customer::Customer;

    fn deref(&self) -> &customer::Customer {
        &self.given
    }
}
