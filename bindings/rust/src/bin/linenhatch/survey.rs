//! What the library itself reads of commits.

use std::collections::HashSet;

pub use linenhatch::survey;
use linenhatch::ObjectId;

/// Of many ids those that no commit which they reach has for a parent; they reach the same.
pub fn heads(store: &[u8], from: &[ObjectId]) -> Vec<ObjectId> {
    let behind: HashSet<ObjectId> = survey(store, &[], from).into_values().flat_map(|info| info.parents).collect();
    from.iter().filter(|id| !behind.contains(id)).copied().collect()
}
