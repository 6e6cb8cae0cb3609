//! Tracing by turns: whether one bench can force the trace to a calibration.

use crate::ffi;
use crate::id::ObjectId;
use crate::refusal::Refusal;
use crate::walk::joined;

/// The most moves of a trace.
pub const MAX_MOVES: u32 = 12;

/// The bytes of the memo for one entry of the store.
const ROW: usize = 26;

/// What [`trace`] says of a start.
#[derive(Clone, Copy, Debug, PartialEq, Eq)]
pub enum Prospect {
    /// The bed can keep the trace off the list.
    NotForced,
    /// The start is on the list.
    AtStart,
    /// The cone forces it.
    Forced {
        /// The number of its first forcing parent in header order, counted from 0.
        number: usize,
        /// That parent's id.
        parent: ObjectId,
    },
}

/// Whether the cone bench can force a trace to a commit of the list, from a commit store alone.
///
/// Two benches trace back from `start` by turns, each choosing a parent, the cone first, `moves` times at most ([`MAX_MOVES`]). The cone gets its way if
/// the trace reaches a commit of `list`, however the bed chooses; a commit without parents off the list is none.
///
/// The refusals come in the order 25, 2, 3, 4, 13: too many moves; the store or the list is too large; the list has an id of another kind than the start; the store's layout is broken; or a commit within
/// `moves` parent steps of the start, the start too, is not in the store or cannot be read there. It takes time in proportion to the links of the store.
///
/// ```
/// use linenhatch::{store_from_commits, trace, ObjectId, Prospect};
///
/// let body = |parents: &[ObjectId]| {
///     let lines: String = parents.iter().map(|p| format!("parent {p}\n")).collect();
///     format!("tree 0000000000000000000000000000000000000000\n{lines}author A <a> 5 +0000\ncommitter A <a> 5 +0000\n\n")
/// };
/// let [run, left, right, one, two] = [9, 8, 7, 2, 1].map(|n| ObjectId([n; 20]));
/// let store = store_from_commits([(run, body(&[left, right])), (left, body(&[one, two])), (right, body(&[two])), (one, body(&[])), (two, body(&[]))])?;
///
/// // From `left` the bed evades to `one`; from `right` it cannot.
/// assert_eq!(trace(&store, run, &[two], 2)?, Prospect::Forced { number: 1, parent: right });
/// assert_eq!(trace(&store, run, &[one], 2)?, Prospect::NotForced);
/// assert_eq!(trace(&store, run, &[run], 0)?, Prospect::AtStart);
/// # Ok::<(), Box<dyn std::error::Error>>(())
/// ```
pub fn trace(store: &[u8], start: ObjectId, list: &[ObjectId], moves: u32) -> Result<Prospect, Refusal> {
    let kind = start.kind();
    let list = joined(kind, list);
    // A store has no more entries than fit its bytes; one that is too large, or too many moves, is refused before the memo is looked at.
    let rows = if moves > MAX_MOVES || store.len() > crate::MAX_FILE_BYTES { 0 } else { entries(store, kind.entry_bytes()) };
    let (mut memo, mut id, mut numbers) = (vec![0; rows * ROW], vec![0; kind.len_in_bytes()], [0; ffi::TRACE_NUMBERS]);
    match ffi::trace(kind.width(), store, start.as_bytes(), &list, moves, &mut memo, &mut id, &mut numbers) {
        0 => Ok(match numbers {
            [1, _] => Prospect::AtStart,
            [2, number] => Prospect::Forced { number: number as usize, parent: ObjectId::from_bytes(&id).expect("an id of this kind") },
            _ => Prospect::NotForced,
        }),
        number => Err(Refusal::from_number(number).expect("a refusal's number")),
    }
}

/// How many entries a store says that it has, at most as many as its bytes have room for.
fn entries(store: &[u8], entry: usize) -> usize {
    let said = store.last_chunk().map_or(0, |last| u32::from_be_bytes(*last) as usize);
    said.min(store.len() / entry)
}
