//! The reference model's calls as a library on which cases and histories are run.

use reference::Call;
use samples::Library;

/// The reference model's calls.
pub const REFERENCE: Library = Library {
    fill: Call::fill,
    carry_out: reference::carry_out,
    find: reference::find,
    size: reference::size,
    read: reference::read,
    kth_name: reference::kth_name,
    total: reference::total,
    free_count: reference::free_count,
    gaps: reference::gaps,
};
