//! Named by local_search/mod.rs, and not given.
pub(crate) fn minimize_routes() {}
