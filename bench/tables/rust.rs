// Rust's own collections, as network.rs uses them.
use std::cmp::{Ordering, Reverse};
use std::collections::{BinaryHeap, HashSet, VecDeque};

// from, to, kind, class, sent, time, scope, wire, sequence, original, id, tag
#[derive(Clone, Copy)]
pub struct Row(pub [u64; 12]);

impl Row {
    fn key(&self) -> (u64, u64) {
        (self.0[5], self.0[8])
    }
}
impl PartialEq for Row {
    fn eq(&self, o: &Self) -> bool {
        self.key() == o.key()
    }
}
impl Eq for Row {}
impl PartialOrd for Row {
    fn partial_cmp(&self, o: &Self) -> Option<Ordering> {
        Some(self.cmp(o))
    }
}
impl Ord for Row {
    fn cmp(&self, o: &Self) -> Ordering {
        self.key().cmp(&o.key())
    }
}

#[inline(never)]
pub fn insert(heap: &mut BinaryHeap<Reverse<Row>>, c: &Row) {
    heap.push(Reverse(*c));
}

#[inline(never)]
pub fn take_due(heap: &mut BinaryHeap<Reverse<Row>>, now: u64) -> Option<Row> {
    if heap.peek()?.0 .0[5] > now {
        return None;
    }
    heap.pop().map(|c| c.0)
}

#[inline(never)]
pub fn has(set: &HashSet<u64>, id: u64) -> bool {
    set.contains(&id)
}

#[inline(never)]
pub fn add(set: &mut HashSet<u64>, id: u64) {
    if !set.contains(&id) {
        set.insert(id);
    }
}

#[inline(never)]
pub fn remove(set: &mut HashSet<u64>, id: u64) {
    set.remove(&id);
}

#[inline(never)]
pub fn ring_turn(ring: &mut VecDeque<[u64; 3]>, k: usize, e: &[u64; 3]) -> u64 {
    let old = ring.get(k).map_or(0, |e| e[2]);
    if ring.len() == 64 {
        ring.pop_front();
    }
    ring.push_back(*e);
    old
}

pub struct Log {
    capacity: usize,
    records: VecDeque<[u64; 8]>,
    dropped: u64,
    tallies: [u64; 16],
}

impl Log {
    pub fn new(capacity: usize) -> Self {
        Self { capacity, records: VecDeque::new(), dropped: 0, tallies: [0; 16] }
    }

    #[inline(never)]
    pub fn record(&mut self, d: &[u64; 8]) {
        if self.capacity == 0 {
            return;
        }
        let c = d[3] as usize;
        self.tallies[2 * c] += 1;
        self.tallies[2 * c + 1] += d[7];
        if self.records.len() == self.capacity {
            self.records.pop_front();
            self.dropped += 1;
        }
        self.records.push_back(*d);
    }

    #[inline(never)]
    pub fn drain(&mut self) -> (Vec<[u64; 8]>, u64, [u64; 16]) {
        (self.records.drain(..).collect(), std::mem::take(&mut self.dropped), std::mem::take(&mut self.tallies))
    }
}
