//! The distance module.
mod matrix;

pub use matrix::*;
