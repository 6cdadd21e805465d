//! Named by local_search/mod.rs, and not given.
pub fn three_opt_improve() {}
