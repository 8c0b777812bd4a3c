//! speed [ROUNDS [MESSAGES]]: seven cases (64 tills, global, accept and flush of each message) through the archive and
//! through the original Rust, in turn. For each case the least CPU time of the rounds on each side, in microseconds a message, and their ratio.
//! speed count MESSAGES: each case once on each side, for a counter of instructions that starts and stops at `measured`.
//! Both sides must count alike: as many sent, not sent, and handled. A last line says how many; where they differ, the status is 1.
mod calls;
use calls::{GLOBAL, Network, NetworkConfig, Opening, RegionPlan};
use hyperscale_network_memory::driver::{Driver, answer};

type Table<T> = Vec<T>;

#[repr(C)]
struct Timespec {
    seconds: i64,
    nanoseconds: i64,
}

unsafe extern "C" {
    fn clock_gettime(clock: i32, time: *mut Timespec) -> i32;
}

/// CPU time of this thread in seconds: the machine may be shared.
fn cpu() -> f64 {
    let mut t = Timespec { seconds: 0, nanoseconds: 0 };
    assert_eq!(unsafe { clock_gettime(3, &mut t) }, 0);
    t.seconds as f64 + t.nanoseconds as f64 / 1e9
}

/// Rates: jitter, loss, duplicate, replay, spike. `regions` and `log` are 0 for none; a flush after each `every` messages.
struct Case {
    name: &'static str,
    size: usize,
    rates: [f64; 5],
    regions: u64,
    log: u64,
    every: u64,
}

const PLAIN: [f64; 5] = [0.1, 0.0, 0.0, 0.0, 0.0];

const CASES: [Case; 7] = [
    Case { name: "256 bytes, jitter 0.1", size: 256, rates: PLAIN, regions: 0, log: 0, every: 1 },
    Case { name: "256 bytes, no jitter", size: 256, rates: [0.0; 5], regions: 0, log: 0, every: 1 },
    Case { name: "four regions", size: 256, rates: PLAIN, regions: 4, log: 0, every: 1 },
    Case { name: "log of 4,096", size: 256, rates: PLAIN, regions: 0, log: 4096, every: 1 },
    Case { name: "every rate on", size: 256, rates: [0.1, 0.05, 0.1, 0.05, 0.05], regions: 0, log: 0, every: 1 },
    Case { name: "65,536 bytes", size: 65_536, rates: PLAIN, regions: 0, log: 0, every: 1 },
    Case { name: "flush each 20", size: 256, rates: PLAIN, regions: 0, log: 0, every: 20 },
];

/// Sent, not sent, handled.
type Counts = (u64, u64, u64);

/// What both sides do: a message goes out, or the copies due by `now` are flushed.
trait Side {
    fn accept(&mut self, from: u64, now: u64, wire: &[u8], tag: u64) -> (u64, u64);
    fn flush(&mut self, now: u64) -> u64;
}

impl Side for Network {
    fn accept(&mut self, from: u64, now: u64, wire: &[u8], tag: u64) -> (u64, u64) {
        let a = Network::accept(self, from, now, 0, 1, GLOBAL, wire, 1, tag);
        assert_eq!(a.number, 0);
        (a.sent, a.deduplicated + a.partition + a.loss + a.fault)
    }
    fn flush(&mut self, now: u64) -> u64 {
        Network::flush(self, now, 4096).delivered
    }
}

impl Side for Driver {
    fn accept(&mut self, from: u64, now: u64, wire: &[u8], tag: u64) -> (u64, u64) {
        self.broadcast(from as u32, now, wire, tag)
    }
    fn flush(&mut self, now: u64) -> u64 {
        self.land(now)
    }
}

/// A case, opened through the archive.
fn archive(c: &Case) -> Network {
    let r = c.rates;
    let mut net = Network::open(&Opening {
        config: NetworkConfig { latency: 150_000_000, jitter: r[0], loss: r[1], duplicate: r[2], replay: r[3], spike: r[4] },
        plan: RegionPlan { planned: u64::from(c.regions > 0), regions: c.regions, seed: 9 },
        seed: 7,
        key: [0x11; 32],
        types: vec![b"transaction.gossip".to_vec()],
        shards: vec![vec![0]],
        masks: vec![1; 64],
        seen: 4096,
        waiting: 4096,
        log: c.log,
    })
    .expect("an accepted opening");
    (0..64).for_each(|t| assert_eq!(net.set_handlers(t, 1, 0).number, 0));
    net
}

/// The same case, opened in the original.
fn original(c: &Case) -> Driver {
    let bits = |x: f64| format!("{:016x}", x.to_bits());
    let r = c.rates.map(bits);
    let regions = if c.regions > 0 { format!("{}:9", c.regions) } else { "none".to_string() };
    let line = format!(
        "open tills=64 seed=7 fkey={} log={} lat=150000000 jit={} loss={} dup={} rep={} spike={} regions={regions} types={} shards=00 masks={}",
        "11".repeat(32),
        c.log,
        r[0],
        r[1],
        r[2],
        r[3],
        r[4],
        b"transaction.gossip".map(|b| format!("{b:02x}")).concat(),
        ["1"; 64].join(",")
    );
    let mut driver = None;
    assert_eq!(answer(&mut driver, &line, 1), "open ok\n");
    let mut d = driver.expect("an accepted opening");
    (0..64).for_each(|t| d.listen(t));
    d
}

/// One case on one side.
#[inline(never)]
#[unsafe(no_mangle)]
fn measured(net: &mut dyn Side, c: &Case, n: u64) -> Counts {
    let mut wire = vec![0xabu8; c.size];
    let (mut sent, mut other, mut handled, mut now) = (0, 0, 0, 0u64);
    for i in 0..n {
        wire[..8].copy_from_slice(&i.to_le_bytes());
        let (s, o) = net.accept(i % 64, now, &wire, i);
        sent += s;
        other += o;
        if i % c.every == c.every - 1 {
            now += 200_000_000;
            handled += net.flush(now);
        }
    }
    (sent, other, handled + net.flush(1 << 60))
}

/// Microseconds a message, and the counts.
fn timed(net: &mut dyn Side, c: &Case, n: u64) -> (f64, Counts) {
    let start = cpu();
    let counts = measured(net, c, n);
    ((cpu() - start) * 1e6 / n as f64, counts)
}

fn messages(c: &Case, n: u64) -> u64 {
    if c.size > 256 { n / 10 } else { n }
}

/// Both sides' counts, which are to be alike.
fn agreed(c: &Case, ours: Counts, theirs: Counts) -> Counts {
    if ours != theirs {
        println!("{} differs: sent, not sent and handled here {ours:?}, in the Rust {theirs:?}", c.name);
        std::process::exit(1);
    }
    ours
}

/// Each case once on each side.
fn count(n: u64) {
    for c in &CASES {
        agreed(c, measured(&mut archive(c), c, n), measured(&mut original(c), c, n));
        println!("{}", c.name);
    }
}

/// The rounds, then a line for each case.
fn main() {
    let args: Vec<String> = std::env::args().skip(1).collect();
    let number = |i: usize, or: u64| args.get(i).map_or(or, |a| a.parse().expect("a number"));
    if args.first().is_some_and(|a| a == "count") {
        return count(number(1, 200));
    }
    let (rounds, n) = (number(0, 7), number(1, 4_000));
    let mut least = [(f64::MAX, f64::MAX); CASES.len()];
    let (mut sends, mut met) = (0, (0, 0, 0));
    for _ in 0..rounds {
        for (c, l) in CASES.iter().zip(&mut least) {
            let (ours, a) = timed(&mut archive(c), c, messages(c, n));
            let (theirs, b) = timed(&mut original(c), c, messages(c, n));
            let (sent, other, handled) = agreed(c, a, b);
            sends += messages(c, n);
            met = (met.0 + sent, met.1 + other, met.2 + handled);
            *l = (l.0.min(ours), l.1.min(theirs));
        }
    }
    for (c, l) in CASES.iter().zip(&least) {
        println!("{:<24} {:>8.2} {:>8.2} {:>6.2}", c.name, l.0, l.1, l.0 / l.1);
    }
    println!("met: {sends} messages on each side in {rounds} rounds of {} cases: {} copies sent, {} not sent, {} rows with a handler, 0 differ", CASES.len(), met.0, met.1, met.2);
}
