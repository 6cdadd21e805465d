//! Named by evaluation/mod.rs, and not given.
pub struct Fleet;

pub fn check_solution() {}
