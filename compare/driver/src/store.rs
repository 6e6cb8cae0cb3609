//! The commit store (document 01: the book), read as an object database.
use gix_hash::{ObjectId, oid};
use gix_object::Find;

pub struct Store {
    bytes: Vec<u8>,
    /// id, start and end of each body, by rising id
    entries: Vec<(ObjectId, usize, usize)>,
}

fn u32_at(bytes: &[u8], at: usize) -> usize {
    u32::from_be_bytes(bytes[at..at + 4].try_into().expect("4 bytes")) as usize
}

impl Store {
    /// None where "the layout [is] broken".
    pub fn from_bytes(bytes: Vec<u8>) -> Option<Self> {
        let trailer = bytes.len().checked_sub(8)?;
        let (start, count) = (u32_at(&bytes, trailer), u32_at(&bytes, trailer + 4));
        if trailer != start + 24 * count {
            return None;
        }
        let mut entries: Vec<(ObjectId, usize, usize)> = Vec::with_capacity(count);
        let mut end = 0;
        for at in (start..trailer).step_by(24) {
            let id = ObjectId::from_bytes(bytes[at..at + 20].try_into().expect("20 bytes"));
            let next = u32_at(&bytes, at + 20);
            if entries.last().is_some_and(|last| last.0 >= id) || next < end {
                return None;
            }
            entries.push((id, end, next));
            end = next;
        }
        (end == start).then_some(Store { bytes, entries })
    }
}

impl Find for Store {
    fn try_find<'a>(&self, id: &oid, buffer: &'a mut Vec<u8>) -> Option<&'a [u8]> {
        let place = self.entries.binary_search_by(|entry| (*entry.0).cmp(id)).ok()?;
        let (_, start, end) = self.entries[place];
        buffer.clear();
        buffer.extend_from_slice(&self.bytes[start..end]);
        Some(buffer)
    }
}
