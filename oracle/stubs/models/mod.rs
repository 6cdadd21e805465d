//! The models' modules.
mod customer;
mod route;
mod solution;
mod vehicle;

pub use customer::*;
pub use route::*;
pub use solution::*;
pub use vehicle::*;
