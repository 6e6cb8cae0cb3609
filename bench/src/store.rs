//! The commit store as an object database for `Simple`: entries read when it is opened, and a fan-out over the first byte of an id as git's
//! pack indices have it. The body is copied to the caller's buffer, as the crate's object databases do.
use gix_hash::{ObjectId, oid};
use gix_object::Find;

pub struct Store {
    bytes: Vec<u8>,
    /// id, start and end of each body, by rising id
    entries: Vec<(ObjectId, u32, u32)>,
    /// how many ids have a first byte below this one
    fan: Vec<usize>,
}

fn u32_at(bytes: &[u8], at: usize) -> u32 {
    u32::from_be_bytes(bytes[at..at + 4].try_into().expect("4 bytes"))
}

impl Store {
    /// None where the layout is broken.
    pub fn from_bytes(bytes: Vec<u8>) -> Option<Self> {
        let trailer = bytes.len().checked_sub(8)?;
        let (start, count) = (u32_at(&bytes, trailer), u32_at(&bytes, trailer + 4));
        if trailer != start as usize + 24 * count as usize {
            return None;
        }
        let mut entries: Vec<(ObjectId, u32, u32)> = Vec::with_capacity(count as usize);
        let mut end = 0;
        for at in (start as usize..trailer).step_by(24) {
            let id = ObjectId::from_bytes(bytes[at..at + 20].try_into().expect("20 bytes"));
            let next = u32_at(&bytes, at + 20);
            if entries.last().is_some_and(|last| last.0 >= id) || next < end {
                return None;
            }
            entries.push((id, end, next));
            end = next;
        }
        let fan = (0..=256).map(|byte| entries.partition_point(|entry| usize::from(entry.0.first_byte()) < byte)).collect();
        (end == start).then_some(Store { bytes, entries, fan })
    }
}

impl Find for Store {
    #[inline]
    fn try_find<'a>(&self, id: &oid, buffer: &'a mut Vec<u8>) -> Option<&'a [u8]> {
        let first = usize::from(id.first_byte());
        let range = &self.entries[self.fan[first]..self.fan[first + 1]];
        let place = range.binary_search_by(|entry| (*entry.0).cmp(id)).ok()?;
        let (_, start, end) = range[place];
        buffer.clear();
        buffer.extend_from_slice(&self.bytes[start as usize..end as usize]);
        Some(buffer)
    }
}
