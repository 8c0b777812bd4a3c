//! edges: document 01's edges, marked or not, asked of the original. The draws that they name are set.
use hyperscale_network_memory::driver::{Driver, answer};
use rand_chacha::set_draws;

const ZERO_KEY: &str = "0000000000000000000000000000000000000000000000000000000000000000";

fn bits(x: f64) -> String {
    format!("{:016x}", x.to_bits())
}

/// An opening of three tills with two types and two shards.
fn opening(latency: u64, jitter: f64) -> String {
    format!(
        "open tills=3 seed=1 fkey={ZERO_KEY} log=16 lat={latency} jit={} loss={z} dup={z} rep={z} spike={z} regions=none types=61,62 shards=00,0101 masks=3,3,3",
        bits(jitter),
        z = bits(0.0)
    )
}

/// Asks, and counts the answers that do not have what is wanted.
#[derive(Default)]
struct Edges {
    driver: Option<Driver>,
    asked: usize,
    wrong: usize,
}

impl Edges {
    fn open(&mut self, latency: u64, jitter: f64) {
        self.ask(&opening(latency, jitter), "open ok");
    }

    /// A line, and what one of its answer lines must have.
    fn ask(&mut self, line: &str, wanted: &str) {
        self.asked += 1;
        let told = answer(&mut self.driver, line, self.asked);
        let first = told.lines().find(|l| l.contains(wanted));
        self.wrong += usize::from(first.is_none());
        match first {
            Some(l) => println!("{line}  ->  {l}"),
            None => println!("WRONG  {line}\n  wanted {wanted}\n  told   {told}"),
        }
    }

    /// The same with set draws.
    fn ask_drawn(&mut self, draws: &[u64], line: &str, wanted: &str) {
        set_draws(draws);
        self.ask(line, wanted);
        set_draws(&[]);
    }

    /// Windows hold their start and not their end; `unblock` takes them all.
    fn windows(&mut self) {
        self.open(150_000_000, 0.1);
        self.ask("blockd 0 1 5 8", "ok");
        for (now, held) in [(4, 0), (5, 1), (7, 1), (8, 0)] {
            self.ask(&format!("isblocked 0 1 {now}"), &format!("isblocked {held}"));
        }
        self.ask("blockd 1 0 5 5", "ok");
        self.ask("blockd 1 0 9 5", "ok");
        for now in 4..8 {
            self.ask(&format!("isblocked 1 0 {now}"), "isblocked 0");
        }
        self.ask("block 2 1", "ok");
        self.ask("blockd 2 1 5 8", "ok");
        self.ask("unblock 2 1", "ok");
        self.ask("isblocked 2 1 6", "isblocked 0");
    }

    /// Times on the wire.
    fn wire_times(&mut self) {
        self.ask("wire 1000000000 1000", "wire 1000");
        self.ask("wire 100000000 65536", "wire 655360");
        self.ask("wire 10000000000 1", "wire 0");
    }

    /// Three tills, the third down.
    fn third_till_down(&mut self) {
        self.open(150_000_000, 0.0);
        self.ask("down 2", "ok");
        let hello = "accept 0 10 0 0 g x6869 1 7";
        self.ask(hello, "sent=1 dedup=0 partition=1 loss=0 fault=0");
        self.ask(hello, "sent=0 dedup=1 partition=1 loss=0 fault=0");
        self.ask("waiting", "copy 0 1 0 0 10 150000010 - 2 1 ");
        self.ask("transit 1", "transit 1");
        self.ask("transit 2", "transit 0");
        self.ask("handlers 1 1 1", "ok");
        self.ask("flush 150000009", "delivered=0 dropped=0 rows=0");
        self.ask("flush 150000010", "delivered=1 dropped=0 rows=1");
        self.ask(hello, "sent=0 dedup=1 partition=1");
        self.ask("accept 0 10 0 0 s0 x6869 1 7", "sent=1 dedup=0 partition=0");
        self.ask("accept 0 10 0 0 s1 x6869 0 7", "sent=0 dedup=0 partition=0");
        self.ask("words", "words fault=0");
    }

    /// 0 draws and passes, 1 draws and drops, NaN too; beyond 0..1 the nearer end; a plain drop does not draw.
    fn probabilities(&mut self) {
        for (p, drops) in [(0.0, false), (-0.0, false), (-1.0, false), (1.0, true), (7.5, true), (f64::NAN, true)] {
            self.open(150_000_000, 0.1);
            let card: String = p.to_bits().to_le_bytes().iter().map(|b| format!("{b:02x}")).collect();
            self.ask(&format!("install x10{card}"), "install id=0");
            self.ask("decide 0 1 0 0 5", if drops { "drop words=2" } else { "pass words=2" });
            self.ask("rules", if drops { "rules 1 0:1" } else { "rules 1 0:0" });
        }
        self.open(150_000_000, 0.1);
        self.ask("install x00", "install id=0");
        self.ask("setfired 0 18446744073709551615", "ok");
        self.ask("decide 0 1 0 0 5", "drop words=0");
        self.ask("fired 0", "fired 0");
        self.ask("remove 0", "remove 1 fired=0");
        self.ask("remove 0", "remove 0 fired=-");
        self.ask("fired 0", "gone");
    }

    /// Cards that are not exact, and one that is.
    fn cards(&mut self) {
        for card in ["x", "x40", "x80", "x01", "x0100ff", "x0804", "x20000000000000000000000000000000"] {
            self.ask(&format!("install {card}"), "refused 13");
        }
        self.ask("install x0803", "install id=1");
    }

    /// The floor, and the ends of the jitter.
    fn latencies(&mut self) {
        let one = format!("latency {ZERO_KEY} 0 0 1 100 1");
        for (base, jitter) in [(0, 0.1), (999_999, 0.0)] {
            self.open(base, jitter);
            self.ask(&one, "latency 1000000 words=0");
        }
        self.open(150_000_000, 0.1);
        self.ask_drawn(&[0], &one, "latency 135000000 words=2");
        self.ask_drawn(&[1 << 63], &one, "latency 150000000 words=2");
    }

    /// Fractions, and whole ranges with and without a second draw.
    fn draws(&mut self) {
        let fraction = format!("draw fraction {ZERO_KEY} 0 1");
        self.ask_drawn(&[0], &fraction, "fraction 0000000000000000 words=2");
        let most = bits(((1u64 << 53) - 1) as f64 / (1u64 << 53) as f64);
        self.ask_drawn(&[u64::MAX], &fraction, &format!("fraction {most} words=2"));
        // ten values: a second draw only where the low half is above 2^64 - 10, a carry only where the halves reach 2^64
        let ten = format!("draw whole {ZERO_KEY} 0 1 10 1");
        let near = u64::MAX / 10; // times 10: 2^64 - 6
        self.ask_drawn(&[u64::MAX, 0], &ten, "whole 10 words=2");
        self.ask_drawn(&[near, 0], &ten, "whole 1 words=4");
        let sixth = (6u128 << 64).div_ceil(10) as u64; // the least whose product's high half is 6
        self.ask_drawn(&[near, sixth - 1], &ten, "whole 1 words=4");
        self.ask_drawn(&[near, sixth], &ten, "whole 2 words=4");
    }
}

/// All of them, then how many were wrong.
fn main() {
    let mut e = Edges::default();
    e.windows();
    e.wire_times();
    e.third_till_down();
    e.probabilities();
    e.cards();
    e.latencies();
    e.draws();
    println!("{} lines, {} wrong", e.asked, e.wrong);
    std::process::exit(i32::from(e.wrong > 0));
}
