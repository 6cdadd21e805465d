//! Named by local_search/mod.rs, and not given.
pub fn cross_depot_improve() {}
