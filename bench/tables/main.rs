// The tables beside Rust's BinaryHeap, HashSet and VecDeque on the same work: time of each, and the ratio (below 1: the table is faster).
// Both sides' results are compared in every round. The tables are reached through C functions, so the Rust side stands behind functions too (rust.rs).
use std::collections::{BinaryHeap, HashSet, VecDeque};
use std::hint::black_box;
use std::time::Instant;

mod calls;
mod rust;

use rust::Row;

const ROUNDS: usize = 7;

struct Random(u64);

impl Random {
    fn next(&mut self) -> u64 {
        self.0 ^= self.0 << 13;
        self.0 ^= self.0 >> 7;
        self.0 ^= self.0 << 17;
        self.0.wrapping_mul(0x2545_F491_4F6C_DD1D)
    }
    fn below(&mut self, n: u64) -> u64 {
        (self.next() >> 16) % n
    }
}

// The least time of a unit of work in some rounds, for both sides; each round is run on the same data, and the answers must agree.
fn compare(what: &str, units: usize, mut ours: impl FnMut(usize) -> u64, mut theirs: impl FnMut(usize) -> u64) {
    let (mut a, mut b) = (f64::MAX, f64::MAX);
    for round in 0..ROUNDS {
        let t = Instant::now();
        let x = black_box(ours(round));
        a = a.min(t.elapsed().as_nanos() as f64 / units as f64);
        let t = Instant::now();
        let y = black_box(theirs(round));
        b = b.min(t.elapsed().as_nanos() as f64 / units as f64);
        assert_eq!(x, y, "{what}: the two sides differ");
    }
    println!("{what:<44} {a:>8.1} ns {b:>8.1} ns   ratio {:.2}", a / b);
}

fn copy(r: &mut Random, sent: u64, sequence: u64) -> Row {
    let latency = 135_000_000 + r.below(30_000_000);
    Row([r.below(64), r.below(64), r.below(16), r.below(8), sent, sent + latency, 16, 256, sequence, 1, r.next(), r.next()])
}

// Messages of 63 copies, one every `period`, each followed by a flush at its time: about `rows` copies are in flight.
fn queue(rows: usize) {
    let messages = (40_000 / 63).max(4 * rows / 63);
    let period = 150_000_000 * 63 / rows as u64;
    let mut r = Random(88172645463325252);
    let data: Vec<Vec<Row>> = (0..messages).map(|m| (0..63).map(|k| copy(&mut r, m as u64 * period, (m * 63 + k) as u64)).collect()).collect();
    let mut ws = vec![0u64; 12 * (rows + 63 * 40)];
    compare(
        &format!("queue, {rows} in flight: insert and flush"),
        messages * 63,
        |_| {
            let (mut n, mut sum) = (0, 0u64);
            for (m, copies) in data.iter().enumerate() {
                for c in copies {
                    calls::insert(&mut ws, n, &c.0);
                    n += 1;
                }
                let k = calls::due(&ws, n, m as u64 * period);
                for i in 0..k {
                    sum = sum.wrapping_mul(31).wrapping_add(ws[12 * i + 8] ^ ws[12 * i + 11]);
                }
                calls::drop_front(&mut ws, n, k);
                n -= k;
            }
            sum
        },
        |_| {
            let (mut heap, mut sum) = (BinaryHeap::new(), 0u64);
            for (m, copies) in data.iter().enumerate() {
                for c in copies {
                    rust::insert(&mut heap, c);
                }
                while let Some(c) = rust::take_due(&mut heap, m as u64 * period) {
                    sum = sum.wrapping_mul(31).wrapping_add(c.0[8] ^ c.0[11]);
                }
            }
            sum
        },
    );
}

// `rows` copies into an empty queue, then all are flushed.
fn queue_once(rows: usize) {
    let times = (60_000 / rows).max(2);
    let mut r = Random(1234567);
    let data: Vec<Vec<Row>> = (0..times).map(|_| (0..rows).map(|k| copy(&mut r, 0, k as u64)).collect()).collect();
    let mut ws = vec![0u64; 12 * rows];
    compare(
        &format!("queue, {rows} rows filled, then flushed"),
        times * rows,
        |_| {
            let mut sum = 0u64;
            for copies in &data {
                for (n, c) in copies.iter().enumerate() {
                    calls::insert(&mut ws, n, &c.0);
                }
                let k = calls::due(&ws, rows, u64::MAX);
                for i in 0..k {
                    sum = sum.wrapping_mul(31).wrapping_add(ws[12 * i + 8] ^ ws[12 * i + 11]);
                }
                calls::drop_front(&mut ws, rows, k);
            }
            sum
        },
        |_| {
            let mut sum = 0u64;
            let mut heap = BinaryHeap::new();
            for copies in &data {
                for c in copies {
                    rust::insert(&mut heap, c);
                }
                while let Some(c) = rust::take_due(&mut heap, u64::MAX) {
                    sum = sum.wrapping_mul(31).wrapping_add(c.0[8] ^ c.0[11]);
                }
            }
            sum
        },
    );
}

// Ids looked for and added, one after the other, to none at first.
fn marks_added(n: usize, ids: &[u64]) {
    let mut seen = vec![0u64; n];
    compare(
        &format!("marks, {n}: each looked for and added"),
        ids.len(),
        |_| {
            ids.chunks(n)
                .map(|part| part.iter().fold(0, |count, &id| calls::add(&mut seen, count, id)) as u64)
                .sum()
        },
        |_| {
            let all = ids.chunks(n).map(|part| {
                let mut set = HashSet::new();
                part.iter().for_each(|&id| rust::add(&mut set, id));
                set.len() as u64
            });
            all.sum()
        },
    );
}

// Among n marks: ids looked for, half of them there; then one removed and one added, again and again.
fn marks_held(n: usize, ids: &[u64], r: &mut Random) {
    let set: HashSet<u64> = ids[..n].iter().copied().collect();
    let mut seen = vec![0u64; n];
    let count = ids[..n].iter().fold(0, |count, &id| calls::add(&mut seen, count, id));
    let asked: Vec<u64> = (0..400_000).map(|_| if r.below(2) == 0 { ids[r.below(n as u64) as usize] } else { r.next() }).collect();
    compare(
        &format!("marks, {n}: looked for, half of them there"),
        asked.len(),
        |_| asked.iter().filter(|&&id| calls::has(&seen, count, id)).count() as u64,
        |_| asked.iter().filter(|&&id| rust::has(&set, id)).count() as u64,
    );
    let mut held: Vec<u64> = ids[..n].to_vec();
    let turns: Vec<(u64, u64)> = (0..40_000)
        .map(|_| {
            let (i, new) = (r.below(n as u64) as usize, r.next());
            (std::mem::replace(&mut held[i], new), new)
        })
        .collect();
    compare(
        &format!("marks, {n}: one removed and one added"),
        turns.len(),
        |_| {
            let (mut seen, mut count) = (seen.clone(), count);
            for &(old, new) in &turns {
                count = calls::remove(&mut seen, count, old);
                count = calls::add(&mut seen, count, new);
            }
            seen[..count].iter().fold(0, |a, b| a ^ b)
        },
        |_| {
            let mut set = set.clone();
            for &(old, new) in &turns {
                rust::remove(&mut set, old);
                rust::add(&mut set, new);
            }
            set.iter().fold(0, |a, b| a ^ b)
        },
    );
}

fn marks(n: usize) {
    let mut r = Random(99887766);
    let ids: Vec<u64> = (0..n * (400_000 / n)).map(|_| r.next()).collect();
    marks_added(n, &ids);
    marks_held(n, &ids, &mut r);
}

// Pushes to one of 272 rings of 64, one of its entries read before each.
fn rings(pushes: usize) {
    let (all, times) = (272, 200_000 / pushes);
    let mut r = Random(424242);
    let data: Vec<(usize, [u64; 3], usize)> = (0..pushes).map(|_| (r.below(8) as usize * 17 + 16, [r.below(8), 256, r.next()], r.below(64) as usize)).collect();
    let size = 194 * all;
    compare(
        &format!("rings, {pushes} pushes, each after a read"),
        pushes * times,
        |_| {
            let (mut ws, mut sum) = (vec![0u64; size], 0u64);
            for _ in 0..times {
                for (ring, e, k) in &data {
                    sum = sum.wrapping_mul(31).wrapping_add(calls::ring_turn(&mut ws, all, *ring, *k, *e));
                }
            }
            (0..all).fold(sum, |s, ring| s.wrapping_mul(31).wrapping_add(calls::ring_count(&ws, all, ring)))
        },
        |_| {
            let (mut rings, mut sum) = (vec![VecDeque::<[u64; 3]>::new(); all], 0u64);
            for _ in 0..times {
                for (ring, e, k) in &data {
                    sum = sum.wrapping_mul(31).wrapping_add(rust::ring_turn(&mut rings[*ring], *k, e));
                }
            }
            (0..all).fold(sum, |s, ring| s.wrapping_mul(31).wrapping_add(rings[ring].len() as u64))
        },
    );
}

// Deliveries to a log of `capacity`, twice as many as it holds, then drained.
fn log(capacity: usize) {
    let times = (200_000 / capacity).max(1);
    let mut r = Random(777);
    let data: Vec<[u64; 8]> = (0..2 * capacity).map(|i| [r.below(64), r.below(64), r.below(16), r.below(8), i as u64, i as u64 + 5, 16, r.below(65_537)]).collect();
    let mut table = vec![0u64; 19 + 8 * capacity];
    let mut out = vec![0u64; 8 * capacity];
    compare(
        &format!("log, capacity {capacity}: pushes and a drain"),
        2 * capacity * times,
        |_| {
            let mut sum = 0u64;
            for _ in 0..times {
                for d in &data {
                    calls::log_push(&mut table, capacity, d);
                }
                sum = sum.wrapping_add(table[2]).wrapping_add((0..16).map(|i| table[3 + i] * (i as u64 + 1)).sum::<u64>());
                let n = calls::log_drain(&mut table, capacity, &mut out) as usize;
                sum = (0..n).fold(sum, |s, i| s.wrapping_mul(31).wrapping_add(out[8 * i + 4] ^ out[8 * i + 7]));
            }
            sum
        },
        |_| {
            let (mut log, mut sum) = (rust::Log::new(capacity), 0u64);
            for _ in 0..times {
                for d in &data {
                    log.record(d);
                }
                let (drained, dropped, tallies) = log.drain();
                sum = sum.wrapping_add(dropped).wrapping_add((0..16).map(|i| tallies[i] * (i as u64 + 1)).sum::<u64>());
                sum = drained.iter().fold(sum, |s, d| s.wrapping_mul(31).wrapping_add(d[4] ^ d[7]));
            }
            sum
        },
    );
}

// Question 1's pass over waiting rows, and over all rings with `used` entries in each of eight.
fn scans(rows: usize) {
    let times = (2_000_000 / rows).max(1);
    let mut r = Random(31337);
    let copies: Vec<Row> = (0..rows).map(|k| copy(&mut r, 0, k as u64)).collect();
    let ws: Vec<u64> = copies.iter().flat_map(|c| c.0).collect();
    compare(
        &format!("scan of {rows} waiting rows"),
        times,
        |_| (0..times).filter(|_| calls::copies_near(black_box(&ws), rows, 64, 16, 8)).count() as u64,
        |_| (0..times).filter(|_| black_box(&copies).iter().all(|c| c.0[0] < 64 && c.0[1] < 64 && c.0[2] < 16 && c.0[3] < 8)).count() as u64,
    );
}

fn ring_scan() {
    let (all, times) = (272, 20_000);
    let mut r = Random(4711);
    let mut ws = vec![0u64; 194 * all];
    let mut rings = vec![VecDeque::<[u64; 3]>::new(); all];
    for _ in 0..300 {
        let (ring, e) = (r.below(8) as usize * 17 + 16, [r.below(8), r.below(65_537), r.next()]);
        calls::ring_turn(&mut ws, all, ring, 0, e);
        rings[ring].push_back(e);
    }
    compare(
        "scan of 272 rings, 300 entries",
        times,
        |_| (0..times).filter(|_| calls::rings_near(black_box(&ws), all, 8, 65_536)).count() as u64,
        |_| (0..times).filter(|_| black_box(&rings).iter().all(|q| q.len() <= 64 && q.iter().all(|e| e[0] < 8 && e[1] <= 65_536))).count() as u64,
    );
}

fn main() {
    println!("{:<44} {:>11} {:>11}", "a unit of work", "table", "Rust");
    for rows in [63, 1_260, 4_096] {
        queue_once(rows);
        queue(rows);
    }
    for n in [100, 2_000, 4_096] {
        marks(n);
    }
    for pushes in [100, 2_000, 4_096] {
        rings(pushes);
    }
    for capacity in [64, 4_096] {
        log(capacity);
    }
    for rows in [63, 1_260, 4_096] {
        scans(rows);
    }
    ring_scan();
}
