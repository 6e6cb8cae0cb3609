//! The order of a walk.

/// In which order commits are handed out.
#[derive(Clone, Copy, Debug, Default, PartialEq, Eq, Hash)]
pub enum Order {
    /// The tips in list order, then their parents, then those parents' parents, each in the order in which they were met.
    #[default]
    Breadth,
    /// Of the commits that wait, the one with the greatest committer time; among equals the first that was queued.
    Newest,
    /// Of the commits that wait, the one with the least committer time; among equals the first that was queued. A commit waits only once a
    /// child of it was handed out, so this is not the reverse of `Newest`.
    Oldest,
}
