//! Stand-in for gix-hashtable: sets and maps hashed by the id's own first bytes.
use std::hash::{BuildHasherDefault, Hasher};

#[derive(Default, Clone, Copy)]
pub struct FirstBytes(u64);

impl Hasher for FirstBytes {
    fn write(&mut self, bytes: &[u8]) {
        self.0 = u64::from_ne_bytes(bytes[..8].try_into().expect("an id has 20 bytes"));
    }

    fn finish(&self) -> u64 {
        self.0
    }
}

pub type HashSet<T = gix_hash::ObjectId> = std::collections::HashSet<T, BuildHasherDefault<FirstBytes>>;
pub type HashMap<K, V> = std::collections::HashMap<K, V, BuildHasherDefault<FirstBytes>>;
