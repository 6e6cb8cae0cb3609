//! Where two series part: the best common ancestor of two commits.

use crate::ffi::{self, Memory};
use crate::id::ObjectId;
use crate::refusal::Refusal;
use crate::walk::Lister;

/// The commit where two series part, from a commit store alone: of all best common ancestors of two commits the first; `None` exactly where no
/// commit is reachable from both.
///
/// A commit is common where it is reachable from both, each being reachable from itself; it is best where it is not reachable from another common
/// commit. Of several the one with the greatest committer time is first, among equals the one with the smallest id: the same commit for
/// everyone, and with the two exchanged. Times decide nothing else.
///
/// The refusals come in the order 2, 4, 13, 23: the store is too large or its layout is broken; a commit that one of the two reaches is not in the
/// store or cannot be read there; or parents run in a circle, so that of the common commits none is best. The store's ids are of the first commit's kind;
/// a second one of the other kind is not in it.
///
/// ```
/// use linenhatch::{merge_base, store_from_commits, ObjectId};
///
/// let body = |parents: &str, seconds: i64| {
///     let who = format!("A <a> {seconds} +0000");
///     format!("tree 0000000000000000000000000000000000000000\n{parents}author {who}\ncommitter {who}\n\n")
/// };
/// let [base, ours, theirs, stranger] = [1, 2, 3, 4].map(|n| ObjectId([n; 20]));
/// let parent = format!("parent {base}\n");
/// let store = store_from_commits([(base, body("", 5)), (ours, body(&parent, 6)), (theirs, body(&parent, 7)), (stranger, body("", 8))])?;
///
/// assert_eq!(merge_base(&store, ours, theirs)?, Some(base));
/// assert_eq!(merge_base(&store, base, theirs)?, Some(base));
/// assert_eq!(merge_base(&store, ours, stranger)?, None);
/// # Ok::<(), Box<dyn std::error::Error>>(())
/// ```
pub fn merge_base(store: &[u8], one: ObjectId, other: ObjectId) -> Result<Option<ObjectId>, Refusal> {
    let kind = one.kind();
    let (mut id, mut numbers) = (vec![0; kind.len_in_bytes()], [0; ffi::BASE_NUMBERS]);
    let second = if other.kind() == kind { other } else { one };
    let mut call = |places| {
        let mut memory = Memory::with_places(kind, places);
        ffi::merge_base(kind.width(), store, one.as_bytes(), second.as_bytes(), &mut memory, &mut id, &mut numbers)
    };
    // The store is tested before memory, so a first try without memory finds its faults, and memory is made for a good store alone.
    let mut result = call(0);
    if result == Refusal::BufferTooSmall.number() {
        result = call(Lister::new(store).tips(&[one, second]).places());
    }
    match result {
        0 | 13 | 23 if other.kind() != kind => Err(Refusal::UnreadableReach),
        0 => Ok(ObjectId::from_bytes(&id).filter(|_| numbers[0] == 1)),
        number => Err(Refusal::from_number(number).expect("a refusal's number")),
    }
}
