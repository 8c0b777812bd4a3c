//! fuzz [CALLS] [SEED]: random calls on whole and damaged tables, each slice against a page that nobody may touch. A refused call must leave every byte as
//! it was and answer nothing but its number; an accepted one may write only what include/gossip.h lets it write; a function may answer only the
//! numbers that the header names for it. Prints how often each function answered each number; the status is 1 where one was never met.
//! fuzz touch before|behind: reads one element too many, to show that this ends the program.
mod calls;
mod guarded;
mod header;
use calls::{Network, NetworkConfig, NetworkSizes, Opening, RegionPlan};
use guarded::Table;
use header::Function;
use std::collections::BTreeMap;

/// xorshift64*.
struct Rng(u64);

impl Rng {
    fn next(&mut self) -> u64 {
        self.0 ^= self.0 >> 12;
        self.0 ^= self.0 << 25;
        self.0 ^= self.0 >> 27;
        self.0.wrapping_mul(0x2545_F491_4F6C_DD1D)
    }
    fn below(&mut self, n: u64) -> u64 {
        self.next() % n.max(1)
    }
    fn one_in(&mut self, n: u64) -> bool {
        self.below(n) == 0
    }
    fn pick<T: Copy>(&mut self, from: &[T]) -> T {
        from[self.below(from.len() as u64) as usize]
    }
    /// Small numbers, and numbers at the ends of their ranges.
    fn number(&mut self) -> u64 {
        let (any, small) = (self.next(), self.below(9));
        self.pick(&[u64::MAX, 1 << 60, (1 << 60) + 1, 1 << 40, u32::MAX.into(), any, 16, 65, small, small, small, small])
    }
    /// Below n, but now and then not.
    fn near(&mut self, n: u64) -> u64 {
        let (in_range, any) = (self.below(n), self.number());
        self.pick(&[in_range, in_range, in_range, in_range, in_range, in_range, in_range, n, any])
    }
    /// Soon, late, the latest, and later.
    fn time(&mut self) -> u64 {
        let (soon, late) = (self.below(1 << 26), self.below(1 << 60));
        self.pick(&[soon, soon, soon, soon, soon, late, 1 << 60, (1 << 60) + 1, u64::MAX])
    }
    /// A mask of n bits, but now and then one bit more.
    fn mask(&mut self, n: u64) -> u64 {
        let (within, any) = (self.below(1 << n), self.number());
        self.pick(&[within, within, within, within, within, 1 << n, any])
    }
}

// ---- openings

/// What is wrong with an opening.
#[derive(Clone, Copy, Debug, PartialEq)]
enum Fault {
    None,
    Lengths,
    Limits,
    Names,
    Ranges,
    Masks,
}

fn rate(r: &mut Rng) -> f64 {
    r.pick(&[0.0, 0.0, 0.25, 1.0])
}

/// An opening within the limits, and its classes.
fn opening(r: &mut Rng) -> (Opening, NetworkSizes) {
    let (tills, types, shards) = (1 + r.below(6), r.pick(&[1, 1, 1, 2, 4]), r.below(4));
    let o = Opening {
        config: NetworkConfig { latency: 20_000_000, jitter: rate(r), loss: rate(r), duplicate: rate(r), replay: rate(r), spike: rate(r) },
        plan: RegionPlan { planned: r.below(3), regions: r.below(5), seed: r.next() },
        seed: r.next(),
        key: std::array::from_fn(|_| r.next() as u8),
        types: (0..types).map(|i| vec![b'a' + i as u8; 1 + r.below(3) as usize]).collect(),
        shards: (0..shards).map(|i| vec![i as u8; 2]).collect(),
        masks: (0..tills).map(|_| r.below(1 << shards)).collect(),
        seen: 1 + r.below(6),
        waiting: 1 + r.below(40),
        log: r.below(6),
    };
    let sizes = NetworkSizes { tills, types, classes: 1 + r.below(8), shards, seen: o.seen, waiting: o.waiting, log: o.log };
    (o, sizes)
}

/// Document 01's limits.
fn within_limits(z: &NetworkSizes, p: &RegionPlan) -> bool {
    let slots = |n: u64| (1..=4096).contains(&n);
    z.tills <= 64 && z.types <= 16 && z.classes <= 8 && z.shards <= 16 && slots(z.seen) && slots(z.waiting) && z.log <= 4096 && p.regions <= 16
}

/// One size beyond its limit, by one where tables of it can still be lent.
fn beyond(r: &mut Rng, z: &mut NetworkSizes, p: &mut RegionPlan) {
    match r.below(9) {
        0 => z.tills = 65,
        1 => z.types = 17,
        2 => z.classes = 9,
        3 => z.shards = 17,
        4 => z.seen = r.pick(&[0, 4097]),
        5 => z.waiting = r.pick(&[0, 4097]),
        6 => z.log = 4097,
        7 => (p.planned, p.regions) = (0, r.pick(&[17, u64::MAX])),
        _ => (p.planned, p.regions) = (1, 17),
    }
}

/// Elements of each table, counted here once more.
fn lengths(z: &NetworkSizes, p: &RegionPlan) -> [u64; 13] {
    let regions = p.regions.max(1);
    let prices = if p.planned == 0 { 0 } else { 2 * regions * regions + z.tills };
    let (names, rings, log) = (16 * 65 + 16 * 17, z.types * 17 * (2 + 64 * 3), 3 + 8 * 2 + z.log * 8);
    [25, 6, names, z.tills * 4, 64 * 64, z.tills * z.tills * 8, prices, z.tills + z.tills * z.seen, z.waiting * 12, rings, 64 * 10, 256 * 5, log]
}

/// Tables of these sizes with any numbers in them, and the names of the opening.
fn lent(r: &mut Rng, o: &Opening, sizes: NetworkSizes) -> Network {
    let n = lengths(&sizes, &o.plan);
    let mut names = vec![0; n[2] as usize];
    o.types.iter().take(16).enumerate().for_each(|(i, text)| calls::put_text(&mut names, i * 65, text, 64));
    o.shards.iter().take(16).enumerate().for_each(|(i, text)| calls::put_text(&mut names, 16 * 65 + i * 17, text, 16));
    let mut cells = |i: usize| -> Table<u64> { (0..n[i]).map(|_| r.number()).collect::<Vec<u64>>().into() };
    Network {
        sizes,
        setup: cells(0),
        net: cells(1),
        names: names.into(),
        tills: cells(3),
        words: cells(4),
        keys: vec![7; n[5] as usize].into(),
        prices: cells(6),
        seen: cells(7),
        waiting: cells(8),
        rings: cells(9),
        rules: cells(10),
        blocks: cells(11),
        log: cells(12),
        out: vec![UNWRITTEN; 600].into(),
    }
}

/// Puts a fault into the numbers of an opening.
fn spoil(r: &mut Rng, fault: Fault, o: &mut Opening, z: &mut NetworkSizes) {
    match fault {
        Fault::Limits => beyond(r, z, &mut o.plan),
        Fault::Names if r.one_in(3) => o.types[0] = vec![b'n'; 65],
        Fault::Names if !o.shards.is_empty() => o.shards[0] = vec![b'k'; r.pick(&[17, 300])],
        Fault::Names => {
            o.types = vec![vec![b'a'; 2]; 2];
            z.types = 2;
        }
        Fault::Ranges => {
            let bad = r.pick(&[f64::NAN, 1.5, -0.5, f64::INFINITY]);
            let c = &mut o.config;
            match r.below(6) {
                0 => c.latency = 60_000_000_001,
                1 => c.jitter = r.pick(&[1.0 / f64::from(1 << 21), bad]),
                2 => c.loss = bad,
                3 => c.duplicate = bad,
                4 => c.replay = bad,
                _ => c.spike = bad,
            }
        }
        Fault::Masks => {
            let t = r.below(z.tills) as usize;
            o.masks[t] = r.pick(&[1 << z.shards, u64::MAX]);
        }
        Fault::None | Fault::Lengths => {}
    }
}

// ---- tables

/// The tables of 64-bit numbers, and the output.
fn tables(n: &mut Network) -> [(&'static str, &mut Table<u64>); 12] {
    [
        ("setup", &mut n.setup),
        ("net", &mut n.net),
        ("tills", &mut n.tills),
        ("words", &mut n.words),
        ("prices", &mut n.prices),
        ("seen", &mut n.seen),
        ("waiting", &mut n.waiting),
        ("rings", &mut n.rings),
        ("rules", &mut n.rules),
        ("blocks", &mut n.blocks),
        ("log", &mut n.log),
        ("out", &mut n.out),
    ]
}

/// Every byte of every table, by name.
type State = Vec<(&'static str, Vec<u8>)>;

/// All that a call could write, or leave.
fn state(n: &mut Network) -> State {
    let mut all: State = tables(n).iter().map(|(name, t)| (*name, t.bytes().to_vec())).collect();
    all.push(("names", n.names.bytes().to_vec()));
    all.push(("keys", n.keys.bytes().to_vec()));
    all
}

/// A table shorter or longer, or with another number in it.
fn damage(r: &mut Rng, n: &mut Network) {
    let which = r.below(14) as usize;
    let (cut, more) = (r.one_in(3), r.one_in(3));
    let sized = |r: &mut Rng, len: usize| if cut { r.below(len as u64 + 1) as usize } else { len + usize::from(more) };
    if which == 12 {
        let len = sized(r, n.names.len());
        n.names.resize(len, 9);
        let i = r.below(len as u64) as usize;
        n.names.get_mut(i).into_iter().for_each(|b| *b = 200);
        return;
    }
    if which == 13 {
        let len = sized(r, n.keys.len());
        n.keys.resize(len, 9);
        return;
    }
    let (len, value) = (sized(r, tables(n)[which].1.len()), r.number());
    let t = &mut *tables(n)[which].1;
    t.resize(len, 7);
    let i = r.below(len.min(30) as u64) as usize;
    t.get_mut(i).into_iter().for_each(|w| *w = value);
}

/// Counters at their limits, in tables that are sound.
fn aim(r: &mut Rng, n: &mut Network) {
    let tills = n.sizes.tills;
    match r.below(8) {
        0 | 1 => {
            n.net[calls::BLOCKS] = 256;
            n.blocks.chunks_mut(5).for_each(|b| (b[0], b[1]) = (b[0] % tills, b[1] % tills));
        }
        2 => n.net[calls::RULES] = 64,
        3 => n.net[calls::INSTALLED] = u32::MAX.into(),
        4 | 5 => n.net[calls::FAULT_WORDS] = r.pick(&[(1 << 40) - 1, 1 << 40]),
        6 => n.net[calls::SEQUENCE] = u64::from(u32::MAX) - r.below(4),
        _ => n.words.fill(1 << 40),
    }
}

/// The tables as they were before they were damaged.
fn put_back(n: &mut Network, before: &State) {
    let cells = |bytes: &[u8]| -> Vec<u64> { bytes.chunks(8).map(|c| u64::from_ne_bytes(c.try_into().expect("eight bytes"))).collect() };
    for ((_, t), (_, bytes)) in tables(n).into_iter().zip(before) {
        if t.bytes() != bytes {
            *t = cells(bytes).into();
        }
    }
    let (names, keys) = (&before[12].1, &before[13].1);
    if n.names.bytes() != names {
        n.names = names.clone().into();
    }
    if n.keys.bytes() != keys {
        n.keys = keys.chunks(4).map(|c| u32::from_ne_bytes(c.try_into().expect("four bytes"))).collect::<Vec<u32>>().into();
    }
}

// ---- calls

/// The words of a reply, its number first.
fn words<T: Copy>(reply: &T) -> Vec<u64> {
    // Safe: replies are plain 64-bit numbers.
    unsafe { std::slice::from_raw_parts((reply as *const T).cast::<u64>(), size_of::<T>() / 8) }.to_vec()
}

/// Bytes of some length, each call others.
fn some_bytes(r: &mut Rng, len: usize) -> Table<u8> {
    let x = r.next();
    (0..len as u64).map(|i| (x.rotate_right(i as u32 % 64) ^ i) as u8).collect::<Vec<u8>>().into()
}

/// Any entry; one that does not open must change nothing.
fn accept(r: &mut Rng, n: &mut Network) -> Vec<u64> {
    let z = n.sizes;
    let len = r.pick(&[0, 1, 1, 30, 30, 300, 300, 65_536, 65_537, 70_000]);
    let (wire, shard) = (some_bytes(r, len), r.near(z.shards));
    let (scope, opens) = (r.pick(&[calls::GLOBAL, calls::GLOBAL, shard]), r.pick(&[0, 1, 1, 1, 1, 1, 2, u64::MAX]));
    let (kind, class, from) = (r.near(z.types), r.near(z.classes), r.near(z.tills));
    let before = if opens == 0 { state(n) } else { State::new() };
    let held = wire.to_vec();
    let reply = words(&n.accept(from, r.time(), kind, class, scope, &wire, opens, r.next()));
    assert!(*wire == *held, "accept wrote its wire bytes");
    if opens == 0 {
        assert!(state(n) == before && reply[1..] == [0; 5], "a payload that does not open changed something");
    }
    reply
}

/// A card: exact more often than not.
fn card(r: &mut Rng) -> Table<u8> {
    let maps = r.pick(&[64, 64, 64, 64, 256]);
    let map = r.below(maps) as u8;
    let fields = [1, 4, 4, 1, 8, 16].iter().enumerate().filter(|(bit, _)| map >> bit & 1 == 1).map(|f| f.1);
    let len = (1 + fields.sum::<usize>() + r.pick(&[0, 0, 0, 0, 1, 15])).saturating_sub(r.pick(&[0, 0, 0, 0, 1, 2]));
    let mut card = some_bytes(r, len);
    if let Some(first) = card.first_mut() {
        *first = map;
    }
    if map & 8 != 0 && !r.one_in(4) {
        let tier = 1 + [1, 4, 4].iter().enumerate().filter(|(bit, _)| map >> bit & 1 == 1).map(|f| f.1).sum::<usize>();
        card.get_mut(tier).into_iter().for_each(|t| *t %= 4);
    }
    card
}

/// What an output holds before a call.
const UNWRITTEN: u64 = 0xA5A5_5A5A_A5A5_5A5A;

/// An output of about so many rows, now and then too short.
fn lend_output(r: &mut Rng, n: &mut Network, rows: u64, width: u64) {
    let len = rows * width;
    let len = r.pick(&[len, len, len, len + 1, len.saturating_sub(1), r.0 % (len + 1)]);
    n.out = vec![UNWRITTEN; len as usize].into();
}

/// A flush with an output for what waits.
fn flush(r: &mut Rng, n: &mut Network) -> Vec<u64> {
    let waiting = n.net.get(calls::WAITING).copied().unwrap_or(0).min(4096);
    lend_output(r, n, waiting, calls::ROW as u64);
    let len = n.out.len();
    words(&n.flush_to(r.time(), len))
}

/// The lengths must be those counted here, and zeros beyond the limits.
fn table_sizes(r: &mut Rng) -> Vec<u64> {
    let (mut o, mut z) = opening(r);
    match r.below(3) {
        0 => beyond(r, &mut z, &mut o.plan),
        1 => z.tills = r.number(),
        _ => {}
    }
    let reply = words(&calls::table_sizes(z, o.plan));
    let (number, told) = reply.split_at(reply.len() - 13);
    let wanted = if within_limits(&z, &o.plan) { lengths(&z, &o.plan) } else { [0; 13] };
    assert_eq!(told, wanted, "table lengths of {z:?} {:?}", o.plan);
    vec![number.first().copied().unwrap_or(0)]
}

/// Inputs on both sides of the longest.
fn digest(r: &mut Rng) -> Vec<u64> {
    let len = r.pick(&[0, 1, 64, 1024, 1025, 4096, 65_700, 65_701, 70_000]);
    let input = some_bytes(r, len);
    let d = calls::digest(&input);
    [vec![d.number.into()], d.words.iter().map(|w| u64::from(*w)).collect()].concat()
}

/// A call of the function of this name, with arguments in range or not.
fn call(r: &mut Rng, n: &mut Network, name: &str) -> Vec<u64> {
    let z = n.sizes;
    let (a, b, id) = (r.near(z.tills), r.near(z.tills), r.below(6));
    match name {
        "table_sizes" => table_sizes(r),
        "accept" => accept(r, n),
        "flush" => flush(r, n),
        "take_down" => words(&n.take_down(a)),
        "bring_up" => words(&n.bring_up(a, r.mask(z.shards))),
        "set_handlers" => words(&n.set_handlers(a, r.mask(z.types), r.mask(z.types))),
        "is_down" => words(&n.is_down(a)),
        "marks" => {
            lend_output(r, n, z.seen, 1);
            words(&n.marks(a))
        }
        "block" => words(&n.block(a, b)),
        "block_during" => words(&n.block_during(a, b, r.time(), r.time())),
        "unblock" => words(&n.unblock(a, b)),
        "is_blocked" => words(&n.is_blocked(a, b, r.time())),
        "install" => words(&n.install(&card(r))),
        "remove" => words(&n.remove(id)),
        "fired" => words(&n.fired(id)),
        "decide" => words(&n.decide(a, b, r.near(z.types), r.near(4), r.time())),
        "in_transit" => words(&n.in_transit(a)),
        "next_time" => words(&n.next_time()),
        "waiting" => {
            lend_output(r, n, z.waiting, calls::COPY as u64);
            words(&n.waiting())
        }
        "drain" => {
            lend_output(r, n, z.log, calls::RECORD as u64);
            words(&n.drain())
        }
        "tally" => words(&n.tally(r.near(z.classes))),
        "digest" => digest(r),
        other => panic!("no call of gossip_{other} here"),
    }
}

// ---- what was met

struct Run {
    r: Rng,
    functions: Vec<Function>,
    met: BTreeMap<(&'static str, u64), u64>,
    made: u64,
}

impl Run {
    fn function(&self, name: &str) -> &Function {
        self.functions.iter().find(|f| f.name == name).expect("a function of the header")
    }

    /// Holds a reply and the tables behind the call to what the header says of the function.
    fn check(&mut self, name: &'static str, reply: &[u64], before: &State, after: &State) {
        let (f, number) = (self.function(name), reply[0]);
        assert!(f.numbers.contains(&number), "gossip_{name} answers {number}, which the header does not name");
        assert!(number == 0 || reply[1..].iter().all(|w| *w == 0), "gossip_{name} refused with {number} and answers {reply:?}");
        for ((table, was), (_, is)) in before.iter().zip(after) {
            let may = number == 0 && f.written.contains(table);
            assert!(may || was == is, "gossip_{name} answers {number} and writes {table}");
        }
        *self.met.entry((name, number)).or_default() += 1;
        self.made += 1;
    }

    /// An opening; the network, where it was accepted.
    fn open(&mut self) -> Option<Network> {
        let r = &mut self.r;
        let fault = r.pick(&[Fault::None, Fault::None, Fault::None, Fault::Lengths, Fault::Limits, Fault::Names, Fault::Ranges, Fault::Masks]);
        let (mut o, mut sizes) = opening(r);
        spoil(r, fault, &mut o, &mut sizes);
        if fault == Fault::Limits {
            o.masks = vec![0; sizes.tills as usize];
        }
        let mut n = lent(r, &o, sizes);
        let (mut key, mut masks): (Table<u8>, Table<u64>) = (o.key.to_vec().into(), o.masks.clone().into());
        match (fault, r.below(4)) {
            (Fault::Lengths, 0) => key.resize(r.pick(&[0, 31, 33]), 1),
            (Fault::Lengths, 1) => masks.resize(masks.len() - 1, 0),
            (Fault::Lengths, _) => damage(r, &mut n),
            _ => {}
        }
        let before = state(&mut n);
        let held = (key.to_vec(), masks.to_vec());
        let reply = words(&n.open_in(&o, &key, &masks));
        assert!((key.to_vec(), masks.to_vec()) == held, "the opening wrote its key or its masks");
        let after = state(&mut n);
        let wanted = match fault {
            Fault::None => 0,
            Fault::Limits | Fault::Names => 2,
            Fault::Ranges => 3,
            Fault::Masks => 5,
            // a number in a table is no wrong length
            Fault::Lengths => reply[0].min(1),
        };
        assert_eq!(reply[0], wanted, "{fault:?}: {sizes:?} {o:?}");
        self.check("open", &reply, &before, &after);
        (reply[0] == 0).then_some(n)
    }

    /// A call on a network, which may be damaged or at a limit for this one call.
    fn step(&mut self, n: &mut Network) {
        let r = &mut self.r;
        let any = self.functions[r.below(self.functions.len() as u64) as usize].name;
        let name = r.pick(&["accept", "flush", any, any, any, any]);
        if name == "open" {
            return;
        }
        let whole = state(n);
        match r.below(9) {
            0 | 1 => damage(r, n),
            2..5 if n.net.len() == 6 => aim(r, n),
            _ => {}
        }
        // an output is lent anew by the call, and looked at apart
        let before_out = n.out.len();
        n.out.fill(UNWRITTEN);
        let before = state(n);
        let reply = call(r, n, name);
        if self.function(name).written.contains(&"out") {
            let unwritten = n.out.iter().all(|w| *w == UNWRITTEN);
            assert!(reply[0] == 0 || unwritten, "gossip_{name} refused with {} and writes its output", reply[0]);
            n.out = vec![UNWRITTEN; before_out].into();
        }
        let after = state(n);
        self.check(name, &reply, &before, &after);
        if reply[0] != 0 || before != whole {
            put_back(n, &whole);
        }
    }

    /// The table of functions and numbers; how many pairs that the header names were not met.
    fn tell(&self) -> usize {
        let most = self.functions.iter().flat_map(|f| f.numbers.iter()).max().copied().unwrap_or(0);
        println!("{:<13}{}", "answered", (0..=most).map(|k| format!("{k:>7}")).collect::<String>());
        let mut missing = 0;
        for f in &self.functions {
            let cell = |k: u64| match (self.met.get(&(f.name, k)), f.numbers.contains(&k)) {
                (Some(count), _) => count.to_string(),
                (None, named) => if named { "NEVER" } else { "" }.to_string(),
            };
            println!("{:<13}{}", f.name, (0..=most).map(|k| format!("{:>7}", cell(k))).collect::<String>());
            missing += f.numbers.iter().filter(|k| !self.met.contains_key(&(f.name, **k))).count();
        }
        let named: usize = self.functions.iter().map(|f| f.numbers.len()).sum();
        let refused: u64 = self.met.iter().filter(|m| m.0.1 != 0).map(|m| m.1).sum();
        println!("{} calls, {refused} of them refused, no byte changed; {} of {named} pairs of function and number met", self.made, named - missing);
        missing
    }
}

/// One element before the slice, or behind it.
fn touch(place: &str) {
    let behind = place == "behind";
    let table = Table::standing(&[1u64; 3], behind);
    let at = if behind { table.as_ptr().wrapping_add(3) } else { table.as_ptr().wrapping_sub(1) };
    println!("read {}", unsafe { at.read_volatile() });
}

/// Openings, and calls on each that is accepted.
fn main() {
    let args: Vec<String> = std::env::args().skip(1).collect();
    if let [word, place] = &args[..] {
        if word == "touch" {
            return touch(place);
        }
    }
    let number = |i: usize, or: u64| args.get(i).map_or(or, |a| a.parse().expect("a number"));
    let calls = number(0, 100_000);
    let mut run = Run { r: Rng(number(1, 1).wrapping_mul(0x9E37_79B9_7F4A_7C15) | 1), functions: header::functions(), met: BTreeMap::new(), made: 0 };
    while run.made < calls {
        let Some(mut n) = run.open() else { continue };
        for _ in 0..120 {
            run.step(&mut n);
        }
    }
    std::process::exit(i32::from(run.tell() > 0));
}
