//! gix-traverse 0.64.0, the part that Linenhatch ports, compiled over stand-in crates. Licence: NOTICE at the root of the repository.
//!
//! `commit/simple.rs` is the published file, byte for byte (`SOURCES.sha256` beside this crate's manifest).
//! `commit/mod.rs` is the published file without these lines, and otherwise unaltered:
//! - lines 5 and 7: `use gix_hash::ObjectId;` and `use gix_revwalk::{PriorityQueue, graph::IdMap};`, used by what follows only;
//! - lines 23 to 42: the struct `Topo` and `pub mod topo;`;
//! - lines 82 to 101: `impl Either` with `tree_id` and `commit_time`.
pub mod commit;
