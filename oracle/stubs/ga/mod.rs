//! The two splits.
mod split;
mod split_tw;

pub use split::*;
pub use split_tw::*;
