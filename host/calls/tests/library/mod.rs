//! The compiled calls as a library on which cases and histories are run.

#[path = "../compiled/mod.rs"]
mod compiled;

use samples::Library;

/// The compiled calls.
pub const COMPILED: Library = Library {
    fill: compiled::fill,
    carry_out: calls::carry_out,
    find: calls::find,
    size: calls::size,
    read: calls::read,
    kth_name: calls::kth_name,
    total: calls::total,
    free_count: calls::free_count,
    gaps: calls::gaps,
};
