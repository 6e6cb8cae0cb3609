//! A lister of git commits whose every answer is proved to be the right one, for Rust.
//!
//! A walk goes back from some commits over their parents and hands out each commit that it should, once. It is a port of gix-traverse's
//! `Simple` walk to Rattle, a language in which every function is proved to meet its contract; this crate is a safe binding to the static
//! library that is built from it.
//!
//! A walk reads two files, lent as bytes: a commit store, which [`StoreBuilder`] writes, and, if there is one, git's own commit-graph file.
//!
//! ```
//! # #[cfg(feature = "walk")]
//! # fn main() -> Result<(), Box<dyn std::error::Error>> {
//! use linenhatch::{store_from_commits, Lister, ObjectId};
//!
//! let id = ObjectId([0x11; 20]);
//! let body = "tree 0000000000000000000000000000000000000000\nauthor A <a> 5 +0000\ncommitter A <a> 5 +0000\n\n";
//! let store = store_from_commits([(id, body)])?;
//!
//! for commit in Lister::new(&store).tips(&[id]).open()? {
//!     println!("{}", commit?.id);
//! }
//! # Ok(())
//! # }
//! # #[cfg(not(feature = "walk"))]
//! # fn main() {}
//! ```
//!
//! Ids are of SHA-1 or of SHA-256 ([`Kind`]): a lister goes by the kind of the ids that it is given, and what is given no id has a form that takes the kind.
//!
//! Without the feature `walk`, which links the library, there are ids, refusals and the store writer.
#![deny(unsafe_code)]
#![warn(missing_docs)]

mod error;
#[cfg(feature = "walk")]
mod ffi;
#[cfg(feature = "walk")]
mod graph;
#[cfg(feature = "walk")]
mod history;
mod id;
#[cfg(feature = "walk")]
mod merge_base;
#[cfg(feature = "walk")]
mod names;
mod order;
mod refusal;
#[cfg(feature = "walk")]
mod reports;
mod repository;
mod revs;
mod store;
#[cfg(feature = "walk")]
mod survey;
mod terms;
#[cfg(feature = "walk")]
mod trace;
#[cfg(feature = "walk")]
mod walk;

pub use error::{Error, Refused};
#[cfg(feature = "walk")]
pub use graph::{graph_length, graph_length_in, write_graph, write_graph_in};
#[cfg(feature = "walk")]
pub use history::History;
pub use id::{Kind, ObjectId, ParseIdError, ParseKindError, ID_BYTES};
#[cfg(feature = "walk")]
pub use merge_base::merge_base;
#[cfg(feature = "walk")]
pub use names::{check_names, check_names_in, Fault};
pub use order::Order;
pub use refusal::{NoRoom, Refusal};
#[cfg(feature = "walk")]
pub use reports::{FeedReport, Reader, TermsReport};
pub use repository::{Commits, References, Repository};
pub use revs::Revs;
pub use store::{entries, header, parents, parents_in, store_from_commits, StoreBuilder, TooLarge, MAX_FILE_BYTES, MAX_IDS};
#[cfg(feature = "walk")]
pub use survey::survey;
pub use terms::{Month, ParseTermError, Term, MAX_TERMS};
#[cfg(feature = "walk")]
pub use trace::{trace, Prospect, MAX_MOVES};
#[cfg(feature = "walk")]
pub use walk::{Commit, Info, Infos, Lister, Numbers, Walk};
