//! Stand-in for gix-object: where commits come from, and the header lines of one commit as document 01 has them.
pub mod commit;

pub use commit::ref_iter::CommitRefIter;
use gix_error::{Cause, Result};
use gix_hash::oid;

/// A store of commits. The body is copied to `buffer`, as the crate's object databases do.
pub trait Find {
    fn try_find<'a>(&self, id: &oid, buffer: &'a mut Vec<u8>) -> Option<&'a [u8]>;
}

impl<T: Find + ?Sized> Find for &T {
    fn try_find<'a>(&self, id: &oid, buffer: &'a mut Vec<u8>) -> Option<&'a [u8]> {
        (**self).try_find(id, buffer)
    }
}

pub trait FindExt: Find {
    /// An id that is not in the store is lost (9; as a tip under a time order 7).
    fn find_commit_iter<'a>(&self, id: &oid, buffer: &'a mut Vec<u8>) -> Result<CommitRefIter<'a>> {
        match self.try_find(id, buffer) {
            Some(body) => Ok(CommitRefIter::from_bytes(body, id.kind())),
            None => Err(Cause::NotFound.into()),
        }
    }
}

impl<T: Find + ?Sized> FindExt for T {}
