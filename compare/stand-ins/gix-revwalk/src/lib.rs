//! Stand-in for gix-revwalk: the queue by priority, and the graph that painting marks.
pub mod graph;
mod queue;

pub use graph::Graph;
pub use queue::{PriorityQueue, forget_the_order_of_equals};
