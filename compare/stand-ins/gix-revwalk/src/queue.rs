//! A queue that gives the greatest key first.
//!
//! The crate's queue is a heap that "gives several [equals] back in no set order". This one is stable, "among equals the first queued", and
//! its unordered iteration is in the order of queueing, so that runs can be compared where keys are equal. After
//! `forget_the_order_of_equals` it is std's plain heap over the keys alone.
use std::{
    cmp::{Ordering, Reverse},
    collections::BinaryHeap,
    sync::atomic::{self, AtomicBool},
};

static FORGET: AtomicBool = AtomicBool::new(false);

/// From here on equals leave every queue of this process as std's heap has it.
pub fn forget_the_order_of_equals() {
    FORGET.store(true, atomic::Ordering::Relaxed);
}

fn forgets() -> bool {
    FORGET.load(atomic::Ordering::Relaxed)
}

#[derive(Clone)]
struct Item<K, T> {
    key: K,
    /// How many were queued before it; always 0 where the order of equals is forgotten.
    number: u64,
    value: T,
}

impl<K: Ord, T> Ord for Item<K, T> {
    fn cmp(&self, other: &Self) -> Ordering {
        self.key.cmp(&other.key).then(Reverse(self.number).cmp(&Reverse(other.number)))
    }
}

impl<K: Ord, T> PartialOrd for Item<K, T> {
    fn partial_cmp(&self, other: &Self) -> Option<Ordering> {
        Some(self.cmp(other))
    }
}

impl<K: Ord, T> PartialEq for Item<K, T> {
    fn eq(&self, other: &Self) -> bool {
        self.cmp(other).is_eq()
    }
}

impl<K: Ord, T> Eq for Item<K, T> {}

#[derive(Clone)]
pub struct PriorityQueue<K, T> {
    heap: BinaryHeap<Item<K, T>>,
    queued: u64,
}

impl<K: Ord, T> PriorityQueue<K, T> {
    #[allow(clippy::new_without_default)]
    pub fn new() -> Self {
        PriorityQueue { heap: BinaryHeap::new(), queued: 0 }
    }

    pub fn insert(&mut self, key: K, value: T) {
        self.heap.push(Item { key, number: self.queued, value });
        if !forgets() {
            self.queued += 1;
        }
    }

    pub fn pop(&mut self) -> Option<(K, T)> {
        self.heap.pop().map(|item| (item.key, item.value))
    }

    pub fn clear(&mut self) {
        self.heap.clear();
    }

    pub fn iter_unordered(&self) -> impl Iterator<Item = &T> {
        self.heap.iter().map(|item| &item.value)
    }

    pub fn into_iter_unordered(self) -> impl Iterator<Item = (K, T)> {
        let mut items = self.heap.into_vec();
        if !forgets() {
            items.sort_by_key(|item| item.number);
        }
        items.into_iter().map(|item| (item.key, item.value))
    }
}

impl<K: Ord, T> FromIterator<(K, T)> for PriorityQueue<K, T> {
    fn from_iter<I: IntoIterator<Item = (K, T)>>(items: I) -> Self {
        let mut queue = PriorityQueue::new();
        for (key, value) in items {
            queue.insert(key, value);
        }
        queue
    }
}
