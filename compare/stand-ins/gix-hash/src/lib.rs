//! Stand-in for gix-hash: object ids of 20 bytes, ordered byte by byte.
use std::{borrow::Borrow, fmt, hash, ops::Deref};

#[derive(Copy, Clone, Eq, PartialEq, Debug)]
pub enum Kind {
    Sha1,
}

impl Kind {
    pub const fn shortest() -> Self {
        Kind::Sha1
    }
}

/// An id that is borrowed. (In the crate it has no size; here it has, which no line of the walk notices.)
#[allow(non_camel_case_types)]
#[derive(Copy, Clone, Eq, PartialEq, Ord, PartialOrd)]
pub struct oid([u8; 20]);

#[derive(Copy, Clone, Eq, PartialEq, Ord, PartialOrd)]
pub struct ObjectId(oid);

impl oid {
    pub fn as_bytes(&self) -> &[u8; 20] {
        &self.0
    }

    pub fn first_byte(&self) -> u8 {
        self.0[0]
    }

    pub fn kind(&self) -> Kind {
        Kind::Sha1
    }

    /// Found before the trait's method of this name, as the crate's `ToOwned` gives it.
    pub fn to_owned(&self) -> ObjectId {
        ObjectId(*self)
    }
}

impl ObjectId {
    pub fn from_bytes(bytes: [u8; 20]) -> Self {
        ObjectId(oid(bytes))
    }
}

impl Deref for ObjectId {
    type Target = oid;

    fn deref(&self) -> &oid {
        &self.0
    }
}

impl AsRef<oid> for ObjectId {
    fn as_ref(&self) -> &oid {
        &self.0
    }
}

impl AsRef<oid> for oid {
    fn as_ref(&self) -> &oid {
        self
    }
}

impl Borrow<oid> for ObjectId {
    fn borrow(&self) -> &oid {
        &self.0
    }
}

impl hash::Hash for oid {
    fn hash<H: hash::Hasher>(&self, state: &mut H) {
        state.write(&self.0);
    }
}

impl hash::Hash for ObjectId {
    fn hash<H: hash::Hasher>(&self, state: &mut H) {
        self.0.hash(state);
    }
}

impl fmt::Display for oid {
    fn fmt(&self, f: &mut fmt::Formatter<'_>) -> fmt::Result {
        self.0.iter().try_for_each(|byte| write!(f, "{byte:02x}"))
    }
}

impl fmt::Display for ObjectId {
    fn fmt(&self, f: &mut fmt::Formatter<'_>) -> fmt::Result {
        self.0.fmt(f)
    }
}

impl fmt::Debug for ObjectId {
    fn fmt(&self, f: &mut fmt::Formatter<'_>) -> fmt::Result {
        fmt::Display::fmt(self, f)
    }
}
