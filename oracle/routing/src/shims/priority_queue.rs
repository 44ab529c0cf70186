//! A priority queue with one entry an item: a push replaces the item's priority, the greatest
//! priority leaves first, and among equal ones the lowest item.
//!
//! It is an indexed heap, as in the published crate: an item is looked up once a push, and only
//! indices move when the heap is put in order.

use std::cmp::Ordering;
use std::collections::hash_map::{Entry, HashMap};
use std::hash::{BuildHasher, Hash};

/// Entries in slots, a binary heap of slots, and each slot's place in the heap.
pub struct PriorityQueue<I, P, S> {
    slots: HashMap<I, usize, S>,
    entries: Vec<(I, P)>,
    heap: Vec<usize>,
    places: Vec<usize>,
}

impl<I, P, S: Default> Default for PriorityQueue<I, P, S> {
    fn default() -> Self {
        Self {
            slots: HashMap::default(),
            entries: Vec::new(),
            heap: Vec::new(),
            places: Vec::new(),
        }
    }
}

impl<I: Copy + Ord + Hash, P: Copy + Ord, S: BuildHasher> PriorityQueue<I, P, S> {
    pub fn clear(&mut self) {
        self.slots.clear();
        self.entries.clear();
        self.heap.clear();
        self.places.clear();
    }

    pub fn push(&mut self, item: I, priority: P) {
        match self.slots.entry(item) {
            Entry::Occupied(known) => {
                let slot = *known.get();
                self.entries[slot].1 = priority;
                let place = self.rise(self.places[slot], slot);
                self.sink(place, slot);
            }
            Entry::Vacant(unknown) => {
                let slot = self.entries.len();
                unknown.insert(slot);
                self.entries.push((item, priority));
                self.heap.push(slot);
                self.places.push(slot);
                self.rise(slot, slot);
            }
        }
    }

    pub fn pop(&mut self) -> Option<(I, P)> {
        let first = *self.heap.first()?;
        let last = self.heap.pop()?;
        if !self.heap.is_empty() {
            self.sink(0, last);
        }
        Some(self.take(first))
    }

    /// Takes the entry out of a slot that is in the heap no more; the last entry moves there.
    fn take(&mut self, slot: usize) -> (I, P) {
        let entry = self.entries.swap_remove(slot);
        self.places.swap_remove(slot);
        self.slots.remove(&entry.0);
        if let Some((moved, _)) = self.entries.get(slot) {
            self.heap[self.places[slot]] = slot;
            *self.slots.get_mut(moved).expect("an entry has a slot") = slot;
        }
        entry
    }

    /// Whether the entry in one slot leaves before that in the other.
    fn before(&self, a: usize, b: usize) -> bool {
        let ((item_a, priority_a), (item_b, priority_b)) = (self.entries[a], self.entries[b]);
        let by_item = if cfg!(feature = "highest_index_first") {
            item_b.cmp(&item_a)
        } else {
            item_a.cmp(&item_b)
        };
        priority_b.cmp(&priority_a).then(by_item) == Ordering::Less
    }

    fn put(&mut self, place: usize, slot: usize) {
        self.heap[place] = slot;
        self.places[slot] = place;
    }

    /// Puts a slot at a place that is free or its own, or above it, and says where.
    fn rise(&mut self, mut place: usize, slot: usize) -> usize {
        while place > 0 {
            let parent = (place - 1) / 2;
            let above = self.heap[parent];
            if !self.before(slot, above) {
                break;
            }
            self.put(place, above);
            place = parent;
        }
        self.put(place, slot);
        place
    }

    /// Puts a slot at a place that is free or its own, or below it.
    fn sink(&mut self, mut place: usize, slot: usize) {
        while let Some((child, below)) = self.first_child(place) {
            if !self.before(below, slot) {
                break;
            }
            self.put(place, below);
            place = child;
        }
        self.put(place, slot);
    }

    /// The child of a place that leaves first, with its slot.
    fn first_child(&self, place: usize) -> Option<(usize, usize)> {
        let left = 2 * place + 1;
        let slot = *self.heap.get(left)?;
        match self.heap.get(left + 1) {
            Some(&right) if self.before(right, slot) => Some((left + 1, right)),
            _ => Some((left, slot)),
        }
    }
}
