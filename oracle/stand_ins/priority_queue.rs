//! Stand-in for the crate priority-queue, built as that crate is: an IndexMap from item to priority, a binary heap of places in the map
//! (greatest priority on top), and the heap place of each entry. Among equal priorities the smaller item is taken first: document 01's tie
//! rule, which the crate itself leaves open.
use indexmap::IndexMap;
use std::hash::Hash;

pub struct PriorityQueue<I: Hash + Eq + Ord, P: Ord> {
    map: IndexMap<I, P>,
    heap: Vec<usize>,
    place: Vec<usize>,
}

impl<I: Hash + Eq + Ord, P: Ord> PriorityQueue<I, P> {
    pub fn new() -> Self {
        Self {
            map: IndexMap::new(),
            heap: Vec::new(),
            place: Vec::new(),
        }
    }

    pub fn is_empty(&self) -> bool {
        self.heap.is_empty()
    }

    /// whether the entry at map place `a` goes before the one at `b`
    #[inline(always)]
    fn before(&self, a: usize, b: usize) -> bool {
        let (item_a, priority_a) = self.map.get_index(a).unwrap();
        let (item_b, priority_b) = self.map.get_index(b).unwrap();
        match priority_a.cmp(priority_b) {
            std::cmp::Ordering::Greater => true,
            std::cmp::Ordering::Less => false,
            std::cmp::Ordering::Equal => item_a < item_b,
        }
    }

    #[inline(always)]
    fn swap(&mut self, x: usize, y: usize) {
        self.heap.swap(x, y);
        self.place[self.heap[x]] = x;
        self.place[self.heap[y]] = y;
    }

    fn up(&mut self, mut at: usize) {
        while at > 0 {
            let parent = (at - 1) / 2;
            if !self.before(self.heap[at], self.heap[parent]) {
                break;
            }
            self.swap(at, parent);
            at = parent;
        }
    }

    fn down(&mut self, mut at: usize) {
        loop {
            let mut first = at;
            for child in [2 * at + 1, 2 * at + 2] {
                if child < self.heap.len() && self.before(self.heap[child], self.heap[first]) {
                    first = child;
                }
            }
            if first == at {
                break;
            }
            self.swap(at, first);
            at = first;
        }
    }

    pub fn push(&mut self, item: I, priority: P) -> Option<P> {
        if let Some((at, _, entry)) = self.map.get_full_mut(&item) {
            let earlier = std::mem::replace(entry, priority);
            let at = self.place[at];
            self.up(at);
            self.down(at);
            return Some(earlier);
        }
        let at = self.map.len();
        self.map.insert(item, priority);
        self.heap.push(at);
        self.place.push(at);
        self.up(at);
        None
    }

    pub fn get_priority(&self, item: &I) -> Option<&P> {
        self.map.get(item)
    }

    pub fn change_priority(&mut self, item: &I, priority: P) -> Option<P> {
        let (at, _, entry) = self.map.get_full_mut(item)?;
        let earlier = std::mem::replace(entry, priority);
        let at = self.place[at];
        self.up(at);
        self.down(at);
        Some(earlier)
    }

    pub fn pop(&mut self) -> Option<(I, P)> {
        if self.heap.is_empty() {
            return None;
        }
        let top = self.heap.swap_remove(0);
        if !self.heap.is_empty() {
            self.place[self.heap[0]] = 0;
        }
        let entry = self.map.swap_remove_index(top);
        // the last entry of the map has moved to `top`
        let last = self.map.len();
        self.place.swap_remove(top);
        if top < last {
            let at = self.place[top];
            self.heap[at] = top;
        }
        if !self.heap.is_empty() {
            self.down(0);
        }
        entry
    }
}
