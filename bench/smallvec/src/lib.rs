//! Stand-in for smallvec, for timing: as in the crate, the first items stand in the vector itself, and only a longer list takes memory.
//! Its items are `Copy`, which those of the walk are.
use std::{
    cmp, fmt, hash,
    iter::Copied,
    mem::MaybeUninit,
    ops::{Deref, RangeFull},
    slice,
};

/// # Safety
/// The type is an array of `SIZE` items.
pub unsafe trait Array {
    type Item: Copy;
    const SIZE: usize;
}

unsafe impl<T: Copy, const N: usize> Array for [T; N] {
    type Item = T;
    const SIZE: usize = N;
}

enum Place<A: Array> {
    /// the first `len` items of the array are written
    Inline {
        len: usize,
        items: MaybeUninit<A>,
    },
    Heap(Vec<A::Item>),
}

pub struct SmallVec<A: Array>(Place<A>);

impl<A: Array> SmallVec<A> {
    #[inline]
    pub fn push(&mut self, item: A::Item) {
        match &mut self.0 {
            Place::Inline { len, items } if *len < A::SIZE => {
                unsafe { items.as_mut_ptr().cast::<A::Item>().add(*len).write(item) };
                *len += 1;
            }
            Place::Inline { .. } => self.spill(item),
            Place::Heap(items) => items.push(item),
        }
    }

    #[cold]
    fn spill(&mut self, item: A::Item) {
        let mut items = Vec::with_capacity(2 * (A::SIZE + 1));
        items.extend_from_slice(self);
        items.push(item);
        self.0 = Place::Heap(items);
    }

    #[inline]
    pub fn clear(&mut self) {
        match &mut self.0 {
            Place::Inline { len, .. } => *len = 0,
            Place::Heap(items) => items.clear(),
        }
    }

    #[inline]
    pub fn drain(&mut self, _all: RangeFull) -> Copied<slice::Iter<'_, A::Item>> {
        let (items, len) = (self.as_ptr(), self.len());
        self.clear();
        // the items are `Copy` and stay where they are until the vector is written again
        unsafe { slice::from_raw_parts(items, len) }.iter().copied()
    }
}

impl<A: Array> Default for SmallVec<A> {
    #[inline]
    fn default() -> Self {
        SmallVec(Place::Inline { len: 0, items: MaybeUninit::uninit() })
    }
}

impl<A: Array> Deref for SmallVec<A> {
    type Target = [A::Item];

    #[inline]
    fn deref(&self) -> &[A::Item] {
        match &self.0 {
            Place::Inline { len, items } => unsafe { slice::from_raw_parts(items.as_ptr().cast(), *len) },
            Place::Heap(items) => items,
        }
    }
}

pub struct IntoIter<A: Array> {
    items: SmallVec<A>,
    at: usize,
}

impl<A: Array> Iterator for IntoIter<A> {
    type Item = A::Item;

    #[inline]
    fn next(&mut self) -> Option<A::Item> {
        let item = self.items.get(self.at).copied();
        self.at += 1;
        item
    }
}

impl<A: Array> IntoIterator for SmallVec<A> {
    type Item = A::Item;
    type IntoIter = IntoIter<A>;

    fn into_iter(self) -> IntoIter<A> {
        IntoIter { items: self, at: 0 }
    }
}

impl<A: Array> Clone for SmallVec<A> {
    fn clone(&self) -> Self {
        let mut out = SmallVec::default();
        if self.len() > A::SIZE {
            out.0 = Place::Heap(self.to_vec());
        } else {
            self.iter().for_each(|item| out.push(*item));
        }
        out
    }
}

impl<A: Array> fmt::Debug for SmallVec<A>
where
    A::Item: fmt::Debug,
{
    fn fmt(&self, f: &mut fmt::Formatter<'_>) -> fmt::Result {
        (**self).fmt(f)
    }
}

impl<A: Array> PartialEq for SmallVec<A>
where
    A::Item: PartialEq,
{
    fn eq(&self, other: &Self) -> bool {
        **self == **other
    }
}

impl<A: Array> Eq for SmallVec<A> where A::Item: Eq {}

impl<A: Array> PartialOrd for SmallVec<A>
where
    A::Item: PartialOrd,
{
    fn partial_cmp(&self, other: &Self) -> Option<cmp::Ordering> {
        (**self).partial_cmp(&**other)
    }
}

impl<A: Array> Ord for SmallVec<A>
where
    A::Item: Ord,
{
    fn cmp(&self, other: &Self) -> cmp::Ordering {
        (**self).cmp(&**other)
    }
}

impl<A: Array> hash::Hash for SmallVec<A>
where
    A::Item: hash::Hash,
{
    fn hash<H: hash::Hasher>(&self, state: &mut H) {
        (**self).hash(state);
    }
}
