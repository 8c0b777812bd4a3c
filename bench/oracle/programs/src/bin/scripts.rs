//! scripts FIRST COUNT FOLDER [CALLS] [should]: for each seed from FIRST on a script of about CALLS calls and the original's answers to it,
//! FOLDER/SEED.script and FOLDER/SEED.expected. With `should`, the scripts have `should` lines too. Prints how often each call was made, and what the answers had.
//! The original runs beside the writing, so that times, pairs and windows are set where copies really wait.
use hyperscale_network_memory::driver::{Copied, Driver, answer};
use std::collections::BTreeMap;

/// No now is later.
const LATEST: u64 = 1 << 60;
const SLOTS: u64 = 4096;
const SECOND: u64 = 1_000_000_000;
/// The number that refuses a window whose end is at or before its start (document 02, M-110); the original takes such a window, and it never matches.
const TURNED: u64 = 18;

/// How often each call was made, and how often each thing was met in the answers.
type Met = BTreeMap<String, u64>;

/// SplitMix64.
struct Dice(u64);

impl Dice {
    fn next(&mut self) -> u64 {
        self.0 = self.0.wrapping_add(0x9e37_79b9_7f4a_7c15);
        let a = (self.0 ^ self.0 >> 30).wrapping_mul(0xbf58_476d_1ce4_e5b9);
        let b = (a ^ a >> 27).wrapping_mul(0x94d0_49bb_1331_11eb);
        b ^ b >> 31
    }
    fn below(&mut self, n: u64) -> u64 {
        self.next() % n.max(1)
    }
    fn in_hundred(&mut self, n: u64) -> bool {
        self.below(100) < n
    }
    fn pick<T: Clone>(&mut self, from: &[T]) -> T {
        from[self.below(from.len() as u64) as usize].clone()
    }
    fn fraction(&mut self) -> f64 {
        (self.next() >> 11) as f64 / (1u64 << 53) as f64
    }
    fn digits(&mut self, bytes: u64) -> String {
        (0..bytes).map(|_| format!("{:02x}", self.below(256))).collect()
    }
}

fn bits(x: f64) -> String {
    format!("{:016x}", x.to_bits())
}

/// A message, to be sent again: type, class, target, wire bytes, tag.
#[derive(Clone)]
struct Sent {
    kind: u64,
    class: u64,
    to: String,
    wire: String,
    tag: u64,
}

/// A script being written, and the network that it has made so far.
struct Writer {
    dice: Dice,
    driver: Option<Driver>,
    script: String,
    expected: String,
    lines: usize,
    met: Met,
    tills: u64,
    types: u64,
    shards: u64,
    latency: u64,
    now: u64,
    sent: Vec<Sent>,
    installed: u64,
    down: Vec<u64>,
}

impl Writer {
    /// Nothing written yet.
    fn new(seed: u64) -> Self {
        Writer {
            dice: Dice(seed),
            driver: None,
            script: String::new(),
            expected: String::new(),
            lines: 0,
            met: Met::new(),
            tills: 0,
            types: 0,
            shards: 0,
            latency: 0,
            now: 0,
            sent: Vec::new(),
            installed: 0,
            down: Vec::new(),
        }
    }

    fn meet(&mut self, what: String, n: u64) {
        *self.met.entry(what).or_default() += n;
    }

    /// What an answer line has: the counts of accept and flush, and of each copy whether it is an original and who takes it.
    fn look(&mut self, line: &str) {
        let words: Vec<&str> = line.split(' ').collect();
        match words[0] {
            "accept" | "flush" => {
                for (name, n) in words.iter().filter_map(|w| w.split_once('=')) {
                    if !["id", "sequence", "waiting"].contains(&name) {
                        self.meet(format!("{} {name}", words[0]), n.parse().expect("a count"));
                    }
                }
            }
            "row" | "drop" => {
                self.meet(format!("{} {}", words[0], if words[10] == "-" { "echo" } else { "original" }), 1);
                if let Some(takers) = words.get(12) {
                    self.meet(format!("row taken by {takers}"), 1);
                }
            }
            _ => {}
        }
    }

    /// Writes a line, and what the original answers.
    fn say(&mut self, line: String) -> String {
        self.lines += 1;
        let told = answer(&mut self.driver, &line, self.lines);
        assert!(!told.starts_with("err"), "{line}: {told}");
        self.meet(format!("call {}", line.split(' ').next().expect("a word")), 1);
        told.lines().for_each(|l| self.look(l));
        self.script += &line;
        self.script.push('\n');
        self.expected += &told;
        told
    }

    /// Writes a line that the original would take and document 02 refuses: it is not asked, and counted.
    fn refuse(&mut self, line: String, number: u64) {
        self.lines += 1;
        let call = line.split(' ').next().expect("a word");
        self.meet(format!("not asked of the original: {call} refused {number}"), 1);
        self.expected += &format!("{call} refused {number}\n");
        self.script += &line;
        self.script.push('\n');
    }

    fn network(&self) -> &Driver {
        self.driver.as_ref().expect("an open network")
    }

    /// Names or keys that differ from each other, with a comma between them.
    fn texts(&mut self, n: u64, lengths: &[u64], letters: bool) -> String {
        let mut all: Vec<String> = Vec::new();
        while (all.len() as u64) < n {
            let length = self.dice.pick(lengths);
            let text = if letters { (0..length).map(|_| format!("{:02x}", 97 + self.dice.below(26))).collect() } else { self.dice.digits(length) };
            let text = if text.is_empty() { "-".to_string() } else { text };
            if !all.contains(&text) {
                all.push(text);
            }
        }
        if all.is_empty() { "none".to_string() } else { all.join(",") }
    }

    /// 0 as often as not, else one of these or any.
    fn rate(&mut self, some: &[f64], most: f64) -> String {
        let any = self.dice.fraction() * most;
        let choices = [&[0.0, 0.0], some, &[any]].concat();
        bits(self.dice.pick(&choices))
    }

    /// No regions, or a plan.
    fn plan(&mut self) -> String {
        if !self.dice.in_hundred(40) {
            return "none".to_string();
        }
        let seed = if self.dice.in_hundred(50) { self.dice.next() } else { self.dice.pick(&[0, 1, 42, u64::MAX]) };
        format!("{}:{seed}", self.dice.pick(&[0, 1, 2, 3, 8, 16]))
    }

    /// An opening of any size, and handlers for most tills.
    fn open(&mut self) {
        self.tills = self.dice.pick(&[1, 2, 3, 3, 4, 5, 8, 12, 33, 64, 64]);
        self.types = self.dice.pick(&[1, 2, 3, 4, 16]);
        self.shards = self.dice.pick(&[0, 1, 2, 4, 16]);
        let any = self.dice.below(60 * SECOND);
        self.latency = self.dice.pick(&[0, 1, 999_999, 1_000_000, 1_000_001, 20_000_000, 150_000_000, 150_000_000, 60 * SECOND, any]);
        let least = 1.0 / f64::from(1 << 20);
        let fraction = self.dice.fraction().max(least);
        let jitter = bits(self.dice.pick(&[0.0, 0.0, 0.1, 0.1, 1.0, least, fraction]));
        let (loss, dup) = (self.rate(&[0.05, 0.3, 1.0], 0.5), self.rate(&[0.2, 1.0], 1.0));
        let (rep, spike) = (self.rate(&[0.2, 1.0], 1.0), self.rate(&[0.1, 1.0], 1.0));
        let (seed, key, log) = (self.dice.next(), self.dice.digits(32), self.dice.pick(&[0, 1, 3, 17, 200, 4096]));
        let regions = self.plan();
        let types = self.texts(self.types, &[0, 1, 5, 12, 31, 64], true);
        let shards = self.texts(self.shards, &[0, 1, 2, 9, 12, 16], false);
        let every = (1 << self.shards) - 1;
        let masks: Vec<String> = (0..self.tills).map(|_| format!("{:04x}", (self.dice.next() | self.dice.next()) & every)).collect();
        self.say(format!(
            "open tills={} seed={seed} fkey={key} log={log} lat={} jit={jitter} loss={loss} dup={dup} rep={rep} spike={spike} regions={regions} types={types} shards={shards} masks={}",
            self.tills,
            self.latency,
            masks.join(",")
        ));
        let late = self.dice.below(LATEST / 2);
        self.now = self.dice.pick(&[0, 0, SECOND, late, LATEST - 5 * SECOND]);
        self.sent.clear();
        self.down.clear();
        self.installed = 0;
        for t in 0..self.tills {
            if self.dice.in_hundred(75) {
                self.handlers(t);
            }
        }
    }

    /// All types, none, or some.
    fn handlers(&mut self, t: u64) {
        let every = (1u64 << self.types) - 1;
        let (a, b) = (self.dice.next() & every, self.dice.next() & every);
        let (gossip, host) = (self.dice.pick(&[0, every, every, a]), self.dice.pick(&[0, 0, every, b]));
        self.say(format!("handlers {t} {gossip:x} {host:x}"));
    }

    /// Bytes of lengths at the edges of blocks, chunks and limits.
    fn wire(&mut self) -> String {
        match self.dice.below(6) {
            0 => "x".to_string(),
            1..4 => {
                let n = 1 + self.dice.below(40);
                format!("x{}", self.dice.digits(n))
            }
            4 => format!("{}*{:02x}", self.dice.pick(&[63, 64, 65, 256, 1023, 1024, 1025, 2048, 4097]), self.dice.below(256)),
            _ => format!("{}*{:02x}", self.dice.pick(&[1000, 30_000, 65_535, 65_536]), self.dice.below(256)),
        }
    }

    /// All tills, or a shard.
    fn target(&mut self, global: u64) -> String {
        if self.shards == 0 || self.dice.in_hundred(global) {
            return "g".to_string();
        }
        format!("s{}", self.dice.below(self.shards))
    }

    /// A new message, or an old one with something changed.
    fn message(&mut self) -> Sent {
        if self.sent.is_empty() || self.dice.in_hundred(60) {
            let (kind, class, to, wire) = (self.dice.below(self.types), self.dice.below(8), self.target(60), self.wire());
            return Sent { kind, class, to, wire, tag: self.dice.next() };
        }
        let sent = std::mem::take(&mut self.sent);
        let mut m = self.dice.pick(&sent);
        self.sent = sent;
        if self.dice.in_hundred(25) {
            m.class = self.dice.below(8);
        }
        if self.dice.in_hundred(25) {
            m.tag = self.dice.next();
        }
        if self.dice.in_hundred(15) {
            m.to = self.target(0);
        }
        m
    }

    /// Question 11 with the most slots: is there room for three copies a till?
    fn has_room(&self) -> bool {
        self.network().waiting_count() as u64 + 3 * self.tills <= SLOTS
    }

    /// Flushes most of what waits, then all that can be.
    fn make_room(&mut self) {
        if !self.has_room() {
            let waiting = self.network().waiting();
            let late = waiting[waiting.len() * 3 / 4].time.min(LATEST);
            self.say(format!("flush {late}"));
        }
        if !self.has_room() {
            self.say(format!("flush {LATEST}"));
        }
    }

    /// Sends a message, where there is room for its copies.
    fn accept(&mut self) {
        self.make_room();
        if !self.has_room() {
            return; // copies of times after the latest now stay
        }
        let (from, m, opens) = (self.dice.below(self.tills), self.message(), u8::from(!self.dice.in_hundred(4)));
        self.say(format!("accept {from} {} {} {} {} {} {opens} {}", self.now, m.kind, m.class, m.to, m.wire, m.tag));
        self.sent.push(m);
    }

    fn some_copy(&mut self) -> Option<Copied> {
        let waiting = self.network().waiting();
        if waiting.is_empty() { None } else { Some(self.dice.pick(&waiting)) }
    }

    /// A pair of tills and a time: mostly those of a copy that waits.
    fn spot(&mut self) -> (u64, u64, u64) {
        match self.some_copy() {
            Some(c) if self.dice.in_hundred(60) => (c.from.into(), c.to.into(), c.time),
            _ => (self.dice.below(self.tills), self.dice.below(self.tills), self.now),
        }
    }

    /// A window whose ends stand at a time, or around it; empty ones and ones the wrong way round too.
    fn window(&mut self, at: u64) -> (u64, u64) {
        let d = self.dice.pick(&[1, 2, 1000, 50_000_000, SECOND]);
        let before = at.saturating_sub(d);
        self.dice.pick(&[(at, at + 1), (before, at), (at + 1, at + 1 + d), (before, at + d), (at, at), (at + d, at), (0, u64::MAX), (at, at + d)])
    }

    /// Now, at a copy, just before the first, or behind the last.
    fn flush(&mut self) {
        let waiting = self.network().waiting();
        let first = waiting.first().map_or(self.now, |c| c.time);
        let last = waiting.last().map_or(self.now, |c| c.time);
        let some = self.some_copy().map_or(self.now, |c| c.time);
        let at = self.dice.pick(&[self.now, first, first.saturating_sub(1), some, some, last]).min(LATEST);
        if self.dice.in_hundred(70) {
            self.now = self.now.max(at);
        }
        self.say(format!("flush {at}"));
    }

    /// Time goes on, and now and then back.
    fn pass_time(&mut self) {
        let step = self.dice.pick(&[0, 1, 1_000_000, 40_000_000, self.latency, SECOND]);
        let back = self.dice.in_hundred(8);
        self.now = if back { self.now.saturating_sub(step) } else { (self.now + step).min(LATEST) };
    }

    /// A till that copies are on their way to.
    fn take_down(&mut self) {
        let t = self.spot().1;
        self.say(format!("down {t}"));
        self.down.push(t);
    }

    /// A till that is down, with some shards.
    fn bring_up(&mut self) {
        let t = if self.down.is_empty() || self.dice.in_hundred(10) {
            self.dice.below(self.tills)
        } else {
            let i = self.dice.below(self.down.len() as u64) as usize;
            self.down.swap_remove(i)
        };
        let shards = self.dice.below(1 << self.shards);
        self.say(format!("up {t} {shards:x}"));
        if self.dice.in_hundred(70) {
            self.handlers(t);
        }
    }

    /// A pair, for ever or for a window.
    fn block(&mut self) {
        let (a, b, at) = self.spot();
        if self.network().window_count() >= 256 {
            self.say(format!("unblock {a} {b}"));
        } else if self.dice.in_hundred(30) {
            self.say(format!("block {a} {b}"));
        } else {
            let (start, end) = self.window(at);
            let line = format!("blockd {a} {b} {start} {end}");
            if end <= start { self.refuse(line, TURNED) } else { _ = self.say(line) }
        }
    }

    /// Which fields a card has: half of them with a probability, and few that drop everything.
    fn card_map(&mut self) -> u8 {
        let mut map = (self.dice.next() & self.dice.next()) as u8 & 0x3f;
        if self.dice.in_hundred(50) {
            map |= 0x10;
        }
        if map & 0x17 == 0 && self.dice.in_hundred(85) {
            map |= self.dice.pick(&[2, 4, 6]);
        }
        map
    }

    /// Inside 0..1, outside, and no number.
    fn probability(&mut self) -> f64 {
        let (f, any) = (self.dice.fraction(), f64::from_bits(self.dice.next()));
        let ends = [0.0, -0.0, 1.0, 0.5, 5e-324, 2.5, -3.0, f64::NAN, -f64::NAN, f64::INFINITY, f64::NEG_INFINITY];
        let choices = [&ends[..], &[f, f, f, any]].concat();
        self.dice.pick(&choices)
    }

    /// A till of a card: now and then one that does not exist.
    fn card_till(&mut self, t: u64) -> [u8; 4] {
        let any = self.dice.next() as u32;
        if self.dice.in_hundred(5) { any } else { t as u32 }.to_le_bytes()
    }

    /// A card that is exact, and whether its window is the wrong way round.
    fn card(&mut self) -> (Vec<u8>, bool) {
        let ((from, to, at), map) = (self.spot(), self.card_map());
        let (mut card, mut turned) = (vec![map], false);
        if map & 1 != 0 {
            let most = if self.dice.in_hundred(10) { 256 } else { self.types };
            card.push(self.dice.below(most) as u8);
        }
        if map & 2 != 0 {
            card.extend(self.card_till(from));
        }
        if map & 4 != 0 {
            card.extend(self.card_till(to));
        }
        if map & 8 != 0 {
            card.push(self.dice.pick(&[0, 0, 0, 1, 2, 3]));
        }
        if map & 16 != 0 {
            card.extend(self.probability().to_le_bytes());
        }
        if map & 32 != 0 {
            let at = if self.dice.in_hundred(50) { self.now } else { at };
            let (start, end) = self.window(at);
            card.extend([start.to_le_bytes(), end.to_le_bytes()].concat());
            turned = end <= start;
        }
        (card, turned)
    }

    /// A card, now and then one that is not exact.
    fn install(&mut self) {
        let (mut card, turned) = self.card();
        // not exact: a byte too many, one too few, a bit that means nothing (bit 6 beside bit 5 closes the window, which the original does not know)
        let wrong = self.dice.below(60);
        match wrong {
            0 => card.push(0),
            1 => _ = card.pop(),
            2 => card[0] |= if card[0] & 0x20 == 0 { self.dice.pick(&[0x40, 0x80]) } else { 0x80 },
            _ => {}
        }
        let digits: String = card.iter().map(|b| format!("{b:02x}")).collect();
        let line = format!("install x{digits}");
        if turned && wrong > 2 {
            return self.refuse(line, TURNED);
        }
        let told = self.say(line);
        self.installed += u64::from(told.contains("id="));
    }

    /// A message for the rules.
    fn decide(&mut self) {
        let (a, b, at) = self.spot();
        let at = if self.dice.in_hundred(50) { self.now } else { at.min(LATEST) };
        let (kind, tier) = (self.dice.below(self.types), self.dice.below(4));
        self.say(format!("decide {a} {b} {kind} {tier} {at}"));
    }

    /// What the plan says of two tills.
    fn geography(&mut self) {
        let (a, b, bytes) = (self.dice.below(self.tills), self.dice.below(self.tills), self.dice.below(65_537));
        self.say(format!("region {a}"));
        self.say(format!("link {a} {b}"));
        self.say(format!("transmission {a} {b} {bytes}"));
    }

    /// Latencies on a stream of their own.
    fn latencies(&mut self) {
        let (key, words, a, b) = (self.dice.digits(32), self.dice.below(5000), self.dice.below(self.tills), self.dice.below(self.tills));
        let bytes = self.dice.pick(&[0, 1, 1000, 65_536]);
        self.say(format!("latency {key} {words} {a} {b} {bytes} 5"));
    }

    /// One call, or some that belong together.
    fn step(&mut self, should: bool) {
        match self.dice.below(100) {
            0..44 => self.accept(),
            44..58 => self.flush(),
            58..61 => {
                let t = self.dice.below(self.tills);
                self.handlers(t);
            }
            61..64 => self.take_down(),
            64..69 => self.bring_up(),
            69..74 => self.block(),
            74..77 => {
                let (a, b, _) = self.spot();
                self.say(format!("unblock {a} {b}"));
            }
            77..79 => {
                let (a, b, at) = self.spot();
                self.say(format!("isblocked {a} {b} {}", at.min(LATEST)));
            }
            79..83 if self.network().rule_count() < 64 => self.install(),
            79..88 => {
                let call = self.dice.pick(&["remove", "remove", "fired"]);
                let id = self.dice.below(self.installed + 2);
                self.say(format!("{call} {id}"));
            }
            88..92 => self.decide(),
            k => self.look_around(k, should),
        }
    }

    /// A reading, a draw, or another opening.
    fn look_around(&mut self, k: u64, should: bool) {
        match k {
            92 => {
                let t = self.dice.below(self.tills);
                self.say(format!("transit {t}"));
            }
            93 => _ = self.say("drain".to_string()),
            94 => self.latencies(),
            95 => self.geography(),
            96 => _ = self.say("next".to_string()),
            97 if should => {
                let ((a, b, at), bytes) = (self.spot(), self.dice.below(65_537));
                self.say(format!("should {a} {b} {} {bytes}", at.min(LATEST)));
            }
            98 if self.tills <= 8 || self.dice.in_hundred(25) => _ = self.say("state".to_string()),
            99 if self.dice.in_hundred(20) => {
                self.say("state".to_string());
                self.open();
            }
            _ => _ = self.say("seen 0".to_string()),
        }
    }

    /// The whole script; at its end all that can land does.
    fn write(&mut self, calls: u64, should: bool) {
        self.open();
        for _ in 0..calls {
            if self.dice.in_hundred(6) {
                self.pass_time();
            }
            self.step(should);
        }
        let last = self.network().waiting().last().map_or(self.now, |c| c.time).min(LATEST);
        for line in ["state", &format!("flush {last}"), "drain", "drain", "state"] {
            self.say(line.to_string());
        }
    }
}

/// The scripts, and what was met.
fn main() {
    let args: Vec<String> = std::env::args().skip(1).collect();
    let number = |i: usize| args.get(i).and_then(|a| a.parse::<u64>().ok());
    let (Some(first), Some(count), Some(folder)) = (number(0), number(1), args.get(2)) else {
        eprintln!("scripts FIRST COUNT FOLDER [CALLS] [should]");
        std::process::exit(2);
    };
    let should = args.iter().any(|a| a == "should");
    std::fs::create_dir_all(folder).expect("a folder");
    let mut met = Met::new();
    for seed in first..first + count {
        let mut w = Writer::new(seed);
        w.write(number(3).unwrap_or(200), should);
        std::fs::write(format!("{folder}/{seed}.script"), &w.script).expect("a script");
        std::fs::write(format!("{folder}/{seed}.expected"), &w.expected).expect("its answers");
        w.met.into_iter().for_each(|(what, n)| *met.entry(what).or_default() += n);
    }
    met.iter().for_each(|(what, n)| println!("{n:>10} {what}"));
}
