//! The commit store: the file that a walk reads commits from.

use std::collections::BTreeMap;
use std::error::Error;
use std::fmt;
use std::ops::Range;

use crate::id::{Kind, ObjectId};

/// The most bytes that a commit store may have; so may a commit-graph file.
pub const MAX_FILE_BYTES: usize = 16_777_216;

/// The most ids that a list of tips, of hidden tips or of excluded ids may have.
pub const MAX_IDS: usize = 1_024;

const TRAILER_BYTES: u64 = 8;

/// Writes a commit store.
///
/// The file has the bodies end to end in the order of their ids; then an entry for each body, its id of 20 or 32 bytes and the offset of its end; then
/// a trailer of 8 bytes, the start of the entries and their number. Offsets and number are big-endian and have 4 bytes.
///
/// ```
/// use linenhatch::{ObjectId, StoreBuilder};
///
/// let mut store = StoreBuilder::new();
/// store.add(ObjectId([0x22; 20]), b"second");
/// store.add(ObjectId([0x11; 20]), b"first ");
/// let bytes = store.finish()?;
/// assert!(bytes.starts_with(b"first second"));
/// assert_eq!(bytes.len(), 12 + 2 * 24 + 8);
///
/// let mut wide = StoreBuilder::new();
/// wide.add(ObjectId::Sha256([0x11; 32]), b"first ");
/// assert_eq!(wide.finish()?.len(), 6 + 36 + 8);
/// # Ok::<(), linenhatch::TooLarge>(())
/// ```
#[derive(Clone, Debug, Default)]
pub struct StoreBuilder {
    /// The first id's.
    kind: Option<Kind>,
    bodies: Vec<u8>,
    parts: BTreeMap<ObjectId, Range<usize>>,
    body_bytes: u64,
}

impl StoreBuilder {
    /// A store without commits.
    ///
    /// ```
    /// assert_eq!(linenhatch::StoreBuilder::new().finish(), Ok(vec![0; 8]));
    /// ```
    pub fn new() -> StoreBuilder {
        StoreBuilder::default()
    }

    /// Adds a commit: its id and its body, the bytes that `git cat-file commit ID` prints. If the id is there already its first body stays.
    ///
    /// Once the store would be too large bodies are no longer kept, only counted, so memory stays bounded.
    ///
    /// # Panics
    ///
    /// If the id is of another kind than the first one: the ids of a store are of one width.
    ///
    /// ```
    /// use linenhatch::{ObjectId, StoreBuilder};
    ///
    /// let mut store = StoreBuilder::new();
    /// store.add(ObjectId([1; 20]), b"first");
    /// store.add(ObjectId([1; 20]), b"other");
    /// assert!(store.finish()?.starts_with(b"first"));
    /// # Ok::<(), linenhatch::TooLarge>(())
    /// ```
    pub fn add(&mut self, id: ObjectId, body: &[u8]) {
        assert_eq!(id.kind(), *self.kind.get_or_insert(id.kind()), "the ids of a commit store are of one kind");
        if self.parts.contains_key(&id) {
            return;
        }
        self.body_bytes += body.len() as u64;
        let start = self.bodies.len();
        self.parts.insert(id, start..start + body.len());
        if self.is_too_large() {
            self.bodies = Vec::new();
        } else {
            self.bodies.extend_from_slice(body);
        }
    }

    /// How many commits were added.
    ///
    /// ```
    /// assert_eq!(linenhatch::StoreBuilder::new().commits(), 0);
    /// ```
    pub fn commits(&self) -> usize {
        self.parts.len()
    }

    /// How many bytes the store needs.
    ///
    /// ```
    /// let mut store = linenhatch::StoreBuilder::new();
    /// store.add(linenhatch::ObjectId([1; 20]), b"first");
    /// assert_eq!(store.bytes(), 5 + 24 + 8);
    /// ```
    pub fn bytes(&self) -> u64 {
        self.body_bytes + (self.kind.unwrap_or_default().entry_bytes() * self.parts.len()) as u64 + TRAILER_BYTES
    }

    fn is_too_large(&self) -> bool {
        self.bytes() > MAX_FILE_BYTES as u64
    }

    /// The store's bytes.
    ///
    /// ```
    /// let mut store = linenhatch::StoreBuilder::new();
    /// store.add(linenhatch::ObjectId([1; 20]), &vec![0; 16_777_216]);
    /// assert_eq!(store.finish().unwrap_err().needed, 16_777_216 + 24 + 8);
    /// ```
    pub fn finish(self) -> Result<Vec<u8>, TooLarge> {
        if self.is_too_large() {
            return Err(TooLarge { needed: self.bytes() });
        }
        let mut store = Vec::with_capacity(self.bytes() as usize);
        for part in self.parts.values() {
            store.extend_from_slice(&self.bodies[part.clone()]);
        }
        let start = store.len() as u32;
        let mut end = 0;
        for (id, part) in &self.parts {
            end += part.len() as u32;
            store.extend_from_slice(id.as_bytes());
            store.extend_from_slice(&end.to_be_bytes());
        }
        store.extend_from_slice(&start.to_be_bytes());
        store.extend_from_slice(&(self.parts.len() as u32).to_be_bytes());
        Ok(store)
    }
}

impl<B: AsRef<[u8]>> Extend<(ObjectId, B)> for StoreBuilder {
    fn extend<I: IntoIterator<Item = (ObjectId, B)>>(&mut self, commits: I) {
        for (id, body) in commits {
            self.add(id, body.as_ref());
        }
    }
}

/// The commit store of some commits, in any order: each an id and its body, the bytes that `git cat-file commit ID` prints.
///
/// ```
/// use linenhatch::{store_from_commits, ObjectId};
///
/// let store = store_from_commits([(ObjectId([0x22; 20]), "second"), (ObjectId([0x11; 20]), "first ")])?;
/// assert!(store.starts_with(b"first second"));
/// # Ok::<(), linenhatch::TooLarge>(())
/// ```
pub fn store_from_commits<B: AsRef<[u8]>>(commits: impl IntoIterator<Item = (ObjectId, B)>) -> Result<Vec<u8>, TooLarge> {
    let mut store = StoreBuilder::new();
    store.extend(commits);
    store.finish()
}

/// The commits of a store in the order of their ids, each with its body: what [`StoreBuilder`] was given. Of bytes that are no store there are none.
/// Of which kind the ids are is seen by the trailer: entries have 24 bytes or 36.
///
/// ```
/// use linenhatch::{entries, store_from_commits, ObjectId};
///
/// let store = store_from_commits([(ObjectId([2; 20]), "second"), (ObjectId([1; 20]), "first")])?;
/// let all: Vec<_> = entries(&store).collect();
/// assert_eq!(all, [(ObjectId([1; 20]), &b"first"[..]), (ObjectId([2; 20]), b"second")]);
/// assert_eq!(entries(b"no store").count(), 0);
///
/// let wide = store_from_commits([(ObjectId::Sha256([1; 32]), "first")])?;
/// assert_eq!(entries(&wide).collect::<Vec<_>>(), [(ObjectId::Sha256([1; 32]), &b"first"[..])]);
/// # Ok::<(), linenhatch::TooLarge>(())
/// ```
pub fn entries(store: &[u8]) -> impl Iterator<Item = (ObjectId, &[u8])> {
    let (kind, table) = entry_table(store).unwrap_or_default();
    let mut from = 0;
    table.chunks_exact(kind.entry_bytes()).map_while(move |entry| {
        let (id, end) = entry.split_at(kind.len_in_bytes());
        let end = u32::from_be_bytes(end.try_into().ok()?) as usize;
        let body = store.get(from..end)?;
        from = end;
        Some((ObjectId::from_bytes(id)?, body))
    })
}

/// The bytes between the bodies and the trailer, where the trailer says that they are entries, and the kind of their ids.
fn entry_table(store: &[u8]) -> Option<(Kind, &[u8])> {
    let (rest, trailer) = store.split_last_chunk::<{ TRAILER_BYTES as usize }>()?;
    let (start, count) = trailer.split_at(4);
    let number = |bytes: &[u8]| bytes.iter().fold(0u64, |number, &byte| number << 8 | u64::from(byte));
    let table = rest.get(number(start) as usize..)?;
    let kind = Kind::ALL.into_iter().find(|kind| table.len() as u64 == kind.entry_bytes() as u64 * number(count))?;
    Some((kind, table))
}

/// The commit store would have over [`MAX_FILE_BYTES`] bytes, and no opening would take it.
#[derive(Clone, Copy, Debug, PartialEq, Eq)]
pub struct TooLarge {
    /// How many bytes it would have.
    pub needed: u64,
}

impl fmt::Display for TooLarge {
    fn fmt(&self, f: &mut fmt::Formatter<'_>) -> fmt::Result {
        write!(f, "the commit store needs {} bytes, and may have at most {MAX_FILE_BYTES}", self.needed)
    }
}

impl Error for TooLarge {}

/// The part of a commit's body that a walk reads: its lines up to and with the committer line.
///
/// A store of such parts is smaller, and every walk over it gives the same answers. A body whose lines are other ones (tree, parents, author,
/// committer in this order) is given back whole. An id cannot be computed again from a part.
///
/// ```
/// let body = b"tree 4b825dc6\nauthor A <a> 5 +0000\ncommitter A <a> 5 +0000\n\nA long message.\n";
/// assert!(linenhatch::header(body).ends_with(b"committer A <a> 5 +0000\n"));
/// ```
pub fn header(body: &[u8]) -> &[u8] {
    match header_end(body) {
        Some(end) => &body[..end],
        None => body,
    }
}

/// Where the committer line ends.
fn header_end(body: &[u8]) -> Option<usize> {
    let mut at = line_end(body, 0, b"tree ")?;
    while let Some(end) = line_end(body, at, b"parent ") {
        at = end;
    }
    let at = line_end(body, at, b"author ")?;
    line_end(body, at, b"committer ")
}

/// Where the line at a place ends, past its newline, if it starts with the word.
fn line_end(body: &[u8], at: usize, word: &[u8]) -> Option<usize> {
    let rest = &body[at..];
    if !rest.starts_with(word) {
        return None;
    }
    let newline = rest.iter().position(|&byte| byte == b'\n')?;
    Some(at + newline + 1)
}

/// The parents that a commit's body names: the good parent lines after its tree line, of SHA-1 ids.
///
/// This is for whoever gathers the commits of a store. What a walk takes for the parents of a commit is its own reading.
///
/// ```
/// use linenhatch::{parents, ObjectId};
///
/// let body = format!("tree 4b825dc6\nparent {}\nauthor A <a> 5 +0000\ncommitter A <a> 5 +0000\n\n", "11".repeat(20));
/// assert_eq!(parents(body.as_bytes()).collect::<Vec<_>>(), [ObjectId([0x11; 20])]);
/// ```
pub fn parents(body: &[u8]) -> impl Iterator<Item = ObjectId> + '_ {
    parents_in(Kind::Sha1, body)
}

/// The same of either kind: a line with an id of the other kind is none.
///
/// ```
/// use linenhatch::{parents_in, Kind, ObjectId};
///
/// let body = format!("tree 6ef19b41\nparent {}\nauthor A <a> 5 +0000\ncommitter A <a> 5 +0000\n\n", "11".repeat(32));
/// assert_eq!(parents_in(Kind::Sha256, body.as_bytes()).collect::<Vec<_>>(), [ObjectId::Sha256([0x11; 32])]);
/// assert_eq!(parents_in(Kind::Sha1, body.as_bytes()).count(), 0);
/// ```
pub fn parents_in(kind: Kind, body: &[u8]) -> impl Iterator<Item = ObjectId> + '_ {
    let mut at = line_end(body, 0, b"tree ");
    std::iter::from_fn(move || {
        let start = at.take()?;
        let end = line_end(body, start, b"parent ")?;
        let id = ObjectId::from_hex(&body[start + b"parent ".len()..end - 1]).filter(|id| id.kind() == kind)?;
        at = Some(end);
        Some(id)
    })
}

#[cfg(test)]
mod tests {
    use super::*;

    const BODY: &[u8] = b"tree 0000000000000000000000000000000000000000\nauthor A <a> 5 +0000\ncommitter A <a> 5 +0000\n\n";

    #[test]
    fn the_empty_store() {
        assert_eq!(StoreBuilder::new().finish(), Ok(vec![0; 8]));
    }

    #[test]
    fn one_commit() {
        let store = store_from_commits([(ObjectId([0x11; 20]), BODY)]).unwrap();
        assert_eq!(BODY.len(), 92);
        assert_eq!(store.len(), 124);
        assert_eq!(&store[..92], BODY);
        assert_eq!(store[92..112], [0x11; 20]);
        assert_eq!(store[112..], [0, 0, 0, 92, 0, 0, 0, 92, 0, 0, 0, 1]);
    }

    #[test]
    fn bodies_and_entries_by_rising_id() {
        let commits = [(ObjectId([3; 20]), "ccc"), (ObjectId([1; 20]), "a"), (ObjectId([2; 20]), ""), (ObjectId([1; 20]), "other")];
        let store = store_from_commits(commits).unwrap();
        let mut expected = b"accc".to_vec();
        for (id, end) in [(1, 1), (2, 1), (3, 4)] {
            expected.extend([id; 20]);
            expected.extend([0, 0, 0, end]);
        }
        expected.extend([0, 0, 0, 4, 0, 0, 0, 3]);
        assert_eq!(store, expected);
    }

    #[test]
    fn ids_of_32_bytes() {
        let commits = [(ObjectId::Sha256([3; 32]), &b"ccc"[..]), (ObjectId::Sha256([1; 32]), b"a"), (ObjectId::Sha256([2; 32]), b"")];
        let store = store_from_commits(commits).unwrap();
        let mut expected = b"accc".to_vec();
        for (id, end) in [(1, 1), (2, 1), (3, 4)] {
            expected.extend([id; 32]);
            expected.extend([0, 0, 0, end]);
        }
        expected.extend([0, 0, 0, 4, 0, 0, 0, 3]);
        assert_eq!(store, expected);
        assert_eq!(entries(&store).collect::<Vec<_>>(), [commits[1], commits[2], commits[0]]);
        for at in 0..store.len() {
            let mut other = store.clone();
            other[at] ^= 0x81;
            assert!(entries(&store[at..]).count() <= 3 && entries(&other).count() <= 3);
        }
    }

    #[test]
    #[should_panic(expected = "one kind")]
    fn ids_of_two_kinds() {
        let _ = store_from_commits([(ObjectId([1; 20]), ""), (ObjectId::Sha256([1; 32]), "")]);
    }

    #[test]
    fn entries_of_any_bytes() {
        let commits = [(ObjectId([1; 20]), &b"a"[..]), (ObjectId([2; 20]), b""), (ObjectId([3; 20]), b"ccc")];
        let store = store_from_commits(commits).unwrap();
        assert_eq!(entries(&store).collect::<Vec<_>>(), commits);
        for at in 0..store.len() {
            assert!(entries(&store[at..]).count() <= 3 && entries(&store[..at]).count() <= 3);
            let mut other = store.clone();
            other[at] ^= 0x81;
            assert!(entries(&other).count() <= 3);
        }
        assert_eq!(entries(&[0xff; 100]).count(), 0);
    }

    #[test]
    fn the_largest_store_and_one_byte_more() {
        let body = vec![0; MAX_FILE_BYTES - 32];
        assert_eq!(store_from_commits([(ObjectId([0; 20]), &body)]).unwrap().len(), MAX_FILE_BYTES);
        let body = vec![0; MAX_FILE_BYTES - 31];
        let mut store = StoreBuilder::new();
        store.add(ObjectId([0; 20]), &body);
        store.add(ObjectId([1; 20]), b"ab");
        assert_eq!(store.commits(), 2);
        assert_eq!(store.bytes(), MAX_FILE_BYTES as u64 + 1 + 24 + 2);
        assert!(store.bodies.is_empty());
        assert_eq!(store.finish(), Err(TooLarge { needed: 16_777_243 }));
    }

    #[test]
    fn what_is_cut() {
        let head = b"tree t\nparent p\nparent q\nauthor A\ncommitter C\n";
        for tail in ["", "\n", "gpgsig -----BEGIN\n x\n\nmessage\n", "encoding ISO-8859-1\n\nm"] {
            let body = [head, tail.as_bytes()].concat();
            assert_eq!(header(&body), head);
        }
        for other in [
            "",
            "tree t",
            "tree t\n\nauthor A\n",
            "tree t\nauthor A\nauthor B\ncommitter C\n",
            "parent p\n",
            "tree t\nauthor A\ncommitter C",
        ] {
            assert_eq!(header(other.as_bytes()), other.as_bytes());
        }
    }

    #[test]
    fn parents_of_a_body() {
        let (one, two) = ("1".repeat(40), "2".repeat(40));
        let body = format!("tree t\nparent {one}\nparent {two}\nauthor A\ncommitter C\n\nparent {one}\n");
        assert_eq!(parents(body.as_bytes()).collect::<Vec<_>>(), [ObjectId([0x11; 20]), ObjectId([0x22; 20])]);
        let body = format!("tree t\nparent {one}\nparent x\nparent {two}\n");
        assert_eq!(parents(body.as_bytes()).collect::<Vec<_>>(), [ObjectId([0x11; 20])]);
        let (three, four) = ("3".repeat(64), "4".repeat(64));
        let body = format!("tree t\nparent {three}\nparent {four}\nparent {one}\nauthor A\ncommitter C\n");
        assert_eq!(
            parents_in(Kind::Sha256, body.as_bytes()).collect::<Vec<_>>(),
            [ObjectId::Sha256([0x33; 32]), ObjectId::Sha256([0x44; 32])]
        );
        assert_eq!(parents(body.as_bytes()).count(), 0);
        assert_eq!(parents(format!("parent {one}\n").as_bytes()).count(), 0);
        assert_eq!(parents(BODY).count(), 0);
    }
}
