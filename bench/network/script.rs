//! The scripts of docs/SCRIPTS.md through the C functions: a line in, its answer lines out. Lines that no C function answers (draws, latencies and
//! the like) are read and passed over.
use crate::calls::{self, COPY, GLOBAL, Network, NetworkConfig, Opening, RECORD, ROW, RegionPlan};
use std::collections::{BTreeMap, HashMap, HashSet};
use std::fmt::Write as _;

/// The longest line, and the most bytes that a word stands for.
const LINE: usize = 2 * 65536 + 4096;
const ROOM: u64 = LINE as u64 / 2;

/// The most shards, waiting slots and seen slots a till.
const SHARDS: u64 = 16;
const SLOTS: u64 = 4096;

/// Question 4.
const NO_TILL: u64 = 4;

/// A shard that no opening has: `s16` is no global entry.
const NOWHERE: u64 = GLOBAL + 1;

// ---- words: `None` for one that is not spelt as it should be

fn decimal(word: &str) -> Option<u64> {
    let digits = word.bytes().all(|b| b.is_ascii_digit());
    word.parse().ok().filter(|_| digits)
}

fn hexadecimal(word: &str) -> Option<u64> {
    let digits = word.bytes().all(|b| b.is_ascii_hexdigit());
    u64::from_str_radix(word, 16).ok().filter(|_| digits)
}

fn float_bits(word: &str) -> Option<u64> {
    hexadecimal(word).filter(|_| word.len() == 16)
}

fn unhex(word: &str) -> Option<Vec<u8>> {
    let pairs = word.as_bytes().chunks(2).map(|p| std::str::from_utf8(p).ok().filter(|p| p.len() == 2));
    pairs.map(|p| Some(hexadecimal(p?)? as u8)).collect()
}

/// `x` and digits, or a length, `*` and the byte that fills it.
fn bytes(word: &str) -> Option<Vec<u8>> {
    if let Some(digits) = word.strip_prefix('x') {
        return unhex(digits);
    }
    let (length, fill) = word.split_once('*')?;
    match unhex(fill)?[..] {
        [b] => Some(vec![b; decimal(length)?.min(ROOM) as usize]),
        _ => None,
    }
}

/// `g`, or `s` and a shard.
fn target(word: &str) -> Option<u64> {
    match word.strip_prefix('s') {
        Some(shard) => decimal(shard).map(|s| if s < SHARDS { s } else { NOWHERE }),
        None => (word == "g").then_some(GLOBAL),
    }
}

/// The words of a call, a letter each: d decimal, m mask, f float, t target, b bytes, k key, o 0 or 1.
fn form(call: &str, words: usize) -> Option<&'static str> {
    Some(match (call, words) {
        ("accept", _) => "ddddtbod",
        ("flush" | "block" | "unblock" | "setfired" | "link" | "wire" | "linkkey", 2) => "dd",
        ("flush" | "seen", 1) => "d",
        ("down" | "remove" | "fired" | "transit" | "setseq" | "setrules" | "region" | "secs", _) => "d",
        ("isblocked" | "setwords" | "transmission", _) => "ddd",
        ("blockd" | "should", _) => "dddd",
        ("decide", _) => "ddddd",
        ("up", _) => "dm",
        ("handlers", _) => "dmm",
        ("install" | "digest", _) => "b",
        ("latency", _) => "kddddd",
        ("nanos", _) => "f",
        ("times", _) => "df",
        ("drain" | "waiting" | "next" | "seen" | "words" | "rings" | "rules" | "blocks" | "tills" | "state", 0) => "",
        _ => return None,
    })
}

/// The words behind `draw KIND`.
fn draw_form(kind: &str) -> Option<&'static str> {
    Some(match kind {
        "word" | "long" | "fraction" => "kdd",
        "real" => "kdffd",
        "whole" => "kdddd",
        "index" => "kddd",
        _ => return None,
    })
}

/// A line's call, its numbers, and the bytes that it names.
struct Line<'a> {
    call: &'a str,
    v: Vec<u64>,
    bytes: Vec<u8>,
}

/// What a word of a kind stands for; bytes go to `room`.
fn value(kind: u8, word: &str, room: &mut Vec<u8>) -> Option<u64> {
    match kind {
        b'd' => decimal(word),
        b'm' => hexadecimal(word),
        b'f' => float_bits(word),
        b't' => target(word),
        b'o' => decimal(word).filter(|v| *v <= 1),
        b'k' => unhex(word).filter(|k| k.len() == 32).map(|_| 0),
        _ => {
            *room = bytes(word)?;
            Some(0)
        }
    }
}

/// A call with all its words, none too many; `None` for a bad line.
fn read<'a>(call: &'a str, words: &[&str]) -> Option<Line<'a>> {
    let (call, form, words) = match (call, words) {
        ("draw", [kind, rest @ ..]) => (call, draw_form(kind)?, rest),
        ("setwords", ["fault", rest @ ..]) => ("setfault", "d", rest),
        _ => (call, form(call, words.len())?, words),
    };
    if form.len() != words.len() {
        return None;
    }
    let mut room = Vec::new();
    let v = form.bytes().zip(words).map(|(kind, w)| value(kind, w, &mut room)).collect::<Option<_>>()?;
    Some(Line { call, v, bytes: room })
}

// ---- openings

const FIELDS: [&str; 14] =
    ["tills", "seed", "fkey", "log", "lat", "jit", "loss", "dup", "rep", "spike", "regions", "types", "shards", "masks"];

/// The fields of an opening: each of the fourteen one time, `slots` and `seen` at most once, no others.
fn fields<'a>(words: &[&'a str]) -> Option<HashMap<&'a str, &'a str>> {
    let f: HashMap<&str, &str> = words.iter().map(|w| w.split_once('=')).collect::<Option<_>>()?;
    let known = |k: &&str| FIELDS.contains(k) || ["slots", "seen"].contains(k);
    (f.len() == words.len() && f.keys().all(known) && FIELDS.iter().all(|k| f.contains_key(k))).then_some(f)
}

fn parts(value: &str) -> Vec<&str> {
    if value == "none" { Vec::new() } else { value.split(',').collect() }
}

fn text(part: &str) -> Option<Vec<u8>> {
    if part == "-" { Some(Vec::new()) } else { unhex(part).filter(|t| !t.is_empty()) }
}

/// `none`, or a number of regions and a seed.
fn plan(value: &str) -> Option<RegionPlan> {
    if value == "none" {
        return Some(RegionPlan { planned: 0, regions: 0, seed: 0 });
    }
    let (regions, seed) = value.split_once(':')?;
    Some(RegionPlan { planned: 1, regions: decimal(regions)?, seed: decimal(seed)? })
}

/// `auto`: the key that `rand_core` 0.6 spreads a seed to, which is the opening's with the fault engine's salt.
fn spread_key(seed: u64) -> [u8; 32] {
    let (mut state, mut key) = (seed ^ 0xfa17_5a17_fa17_5a17, [0; 32]);
    for word in key.chunks_mut(4) {
        state = state.wrapping_mul(6_364_136_223_846_793_005).wrapping_add(11_634_580_027_462_260_723);
        let mixed = ((state >> 18 ^ state) >> 27) as u32;
        word.copy_from_slice(&mixed.rotate_right((state >> 59) as u32).to_le_bytes());
    }
    key
}

/// The opening of a line.
fn opening(words: &[&str]) -> Option<Opening> {
    let f = fields(words)?;
    let rate = |k: &str| float_bits(f[k]).map(f64::from_bits);
    let masks: Vec<u64> = parts(f["masks"]).into_iter().map(hexadecimal).collect::<Option<_>>()?;
    if masks.len() as u64 != decimal(f["tills"])? {
        return None;
    }
    let seed = decimal(f["seed"])?;
    let slots = |k: &str| f.get(k).map_or(Some(SLOTS), |v| decimal(v));
    Some(Opening {
        config: NetworkConfig {
            latency: decimal(f["lat"])?,
            jitter: rate("jit")?,
            loss: rate("loss")?,
            duplicate: rate("dup")?,
            replay: rate("rep")?,
            spike: rate("spike")?,
        },
        plan: plan(f["regions"])?,
        seed,
        key: if f["fkey"] == "auto" { spread_key(seed) } else { unhex(f["fkey"])?.try_into().ok()? },
        types: parts(f["types"]).into_iter().map(text).collect::<Option<_>>()?,
        shards: parts(f["shards"]).into_iter().map(text).collect::<Option<_>>()?,
        masks,
        seen: slots("seen")?,
        waiting: slots("slots")?,
        log: decimal(f["log"])?,
    })
}

// ---- answers

fn scope(n: u64) -> String {
    if n == GLOBAL { "-".into() } else { n.to_string() }
}

/// A copy's eleven fields.
fn copy(c: &[u64]) -> String {
    let id = if c[9] != 0 { format!("{:016x}", c[10]) } else { "-".into() };
    format!("{} {} {} {} {} {} {} {} {} {} {}", c[0], c[1], c[2], c[3], c[4], c[5], scope(c[6]), c[7], c[8], id, c[11])
}

fn done(o: &mut String, call: &str, number: u64) {
    let _ = if number == 0 { writeln!(o, "{call} ok") } else { writeln!(o, "{call} refused {number}") };
}

/// A value behind its name, or the number that refused it.
fn valued(o: &mut String, call: &str, number: u64, text: impl std::fmt::Display) {
    let _ = if number == 0 { writeln!(o, "{call} {text}") } else { writeln!(o, "{call} refused {number}") };
}

/// The rows that a flush gave stand among the copies that were due: the others were dropped.
fn flush(n: &mut Network, now: u64, rows: u64, o: &mut String) {
    let count = n.net[calls::WAITING] as usize;
    let due: Vec<Vec<u64>> = n.waiting[..count * COPY].chunks(COPY).filter(|c| c[5] <= now).map(<[u64]>::to_vec).collect();
    let f = n.flush(now, rows.min(SLOTS) as usize);
    if f.number != 0 {
        return done(o, "flush", f.number);
    }
    let _ = writeln!(o, "flush delivered={} dropped={} rows={}", f.delivered, f.dropped, f.rows);
    let mut landed = n.out[..f.rows as usize * ROW].chunks(ROW).peekable();
    for c in &due {
        let Some(r) = landed.next_if(|r| r[..COPY] == c[..]) else {
            let _ = writeln!(o, "drop {}", copy(c));
            continue;
        };
        let by = ["-", "g", "h", "gh"][(r[COPY] != 0) as usize + 2 * (r[COPY + 1] != 0) as usize];
        let _ = writeln!(o, "row {} {by}", copy(c));
    }
    assert!(landed.next().is_none(), "every row is a due copy, in order");
}

/// Counts, tallies and records.
fn drain(n: &mut Network, o: &mut String) {
    let d = n.drain();
    if d.number != 0 {
        return done(o, "drain", d.number);
    }
    let tallies: Vec<String> = d.tallies.iter().map(|t| format!("{}:{}", t.deliveries, t.bytes)).collect();
    let _ = writeln!(o, "drain records={} dropped={} tallies={}", d.records, d.forced, tallies.join(","));
    for r in n.out[..d.records as usize * RECORD].chunks(RECORD) {
        let _ = writeln!(o, "record {} {} {} {} {} {} {} {}", r[0], r[1], r[2], r[3], r[4], r[5], scope(r[6]), r[7]);
    }
}

/// The marks of a till.
fn seen(n: &mut Network, t: u64, o: &mut String) {
    let v = n.marks(t);
    if v.number != 0 {
        return done(o, "seen", v.number);
    }
    let ids: String = n.out[..v.count as usize].iter().map(|id| format!(" {id:016x}")).collect();
    let _ = writeln!(o, "seen {t} {}{ids}", v.count);
}

/// The waiting copies.
fn waiting(n: &mut Network, o: &mut String) {
    let v = n.waiting();
    if v.number != 0 {
        return done(o, "waiting", v.number);
    }
    let _ = writeln!(o, "waiting {}", v.count);
    n.out[..v.count as usize * COPY].chunks(COPY).for_each(|c| _ = writeln!(o, "copy {}", copy(c)));
}

/// Counts, id, sequence and how many wait.
fn accept(n: &mut Network, l: &Line, o: &mut String) {
    let [from, now, kind, class, to, _, opens, tag] = l.v[..] else { unreachable!("eight words") };
    let a = n.accept(from, now, kind, class, to, &l.bytes, opens, tag);
    if a.number != 0 {
        return done(o, "accept", a.number);
    }
    let _ = write!(o, "accept sent={} dedup={} partition={} loss={} fault={} ", a.sent, a.deduplicated, a.partition, a.loss, a.fault);
    let id = n.id(kind, to, &l.bytes);
    let _ = writeln!(o, "id={id:016x} sequence={} waiting={}", n.net[calls::SEQUENCE], n.net[calls::WAITING]);
}

// ---- readings of the tables themselves, which the wrapper owns

/// The rings that are not empty.
fn rings(n: &Network, o: &mut String) {
    let rings = n.sizes.types as usize * 17;
    let mut found = BTreeMap::new();
    for r in 0..rings {
        let (count, first) = (n.rings[2 * r] as usize, n.rings[2 * r + 1] as usize);
        let (kind, sc) = (r / 17, (r % 17) as u64);
        let mut line = format!("ring {kind} {} {count}", scope(sc));
        for k in 0..count {
            let b = rings * 2 + r * 192 + (first + k) % 64 * 3;
            let _ = write!(line, " {}/{}/{}", n.rings[b], n.rings[b + 1], n.rings[b + 2]);
        }
        if count > 0 {
            found.insert((kind, sc != GLOBAL, sc), line); // global first
        }
    }
    let _ = writeln!(o, "rings {}", found.len());
    found.values().for_each(|line| _ = writeln!(o, "{line}"));
}

/// One table.
fn table(n: &Network, part: &str, o: &mut String) {
    match part {
        "tills" => {
            let tills: String = n.tills.chunks(4).map(|t| format!(" {}/{:04x}/{:04x}/{:04x}", t[0], t[3], t[1], t[2])).collect();
            let _ = writeln!(o, "tills{tills}");
        }
        "blocks" => {
            let windows = n.net[calls::BLOCKS] as usize;
            let edges: HashSet<(u64, u64)> = n.blocks[..windows * 5].chunks(5).map(|b| (b[0], b[1])).collect();
            let _ = writeln!(o, "blocks edges={} windows={windows}", edges.len());
        }
        "rules" => {
            let count = n.net[calls::RULES] as usize;
            let rules: String = n.rules[..count * 10].chunks(10).map(|r| format!(" {}:{}", r[0], r[9])).collect();
            let _ = writeln!(o, "rules {count}{rules}");
        }
        "words" => {
            let _ = writeln!(o, "words fault={}", n.net[calls::FAULT_WORDS]);
            for (i, w) in n.words.iter().enumerate().filter(|w| *w.1 > 0) {
                let _ = writeln!(o, "word {} {} {w}", i / 64, i % 64);
            }
        }
        _ => rings(n, o),
    }
}

/// What the opening wrote into `prices`: base and rate of each pair of regions, then the region of each till.
fn geography(n: &Network, l: &Line, o: &mut String) -> Option<()> {
    let tills = if l.call == "region" { &l.v[..1] } else { &l.v[..2] };
    if tills.iter().any(|t| *t >= n.sizes.tills) {
        return None;
    }
    if n.setup[calls::PLANNED] == 0 {
        let _ = writeln!(o, "{} {}", l.call, if l.call == "transmission" { "0" } else { "-" });
        return Some(());
    }
    let regions = n.setup[calls::REGIONS].max(1);
    let region = |t: u64| n.prices[(2 * regions * regions + t) as usize];
    let price = |k: u64| n.prices[(2 * (region(tills[0]) * regions + region(tills[tills.len() - 1])) + k) as usize];
    let _ = match l.call {
        "region" => writeln!(o, "region {}", region(tills[0])),
        "link" => writeln!(o, "link base={} rate={}", price(0), price(1)),
        _ => writeln!(o, "transmission {}", l.v[2] * 1_000_000_000 / price(1)),
    };
    Some(())
}

// ---- calls

/// The hooks: they write a counter.
fn hook(n: &mut Network, l: &Line, o: &mut String) {
    let v = &l.v;
    match l.call {
        "setfired" => {
            let count = n.net[calls::RULES] as usize;
            n.rules[..count * 10].chunks_mut(10).filter(|r| r[0] == v[0]).for_each(|r| r[9] = v[1]);
        }
        "setwords" if v[0].max(v[1]) >= n.sizes.tills => return done(o, "setwords", NO_TILL),
        "setwords" => n.words[(v[0] * 64 + v[1]) as usize] = v[2],
        "setfault" => n.net[calls::FAULT_WORDS] = v[0],
        "setseq" => n.net[calls::SEQUENCE] = v[0],
        _ => n.net[calls::INSTALLED] = v[0],
    }
    done(o, if l.call == "setfault" { "setwords" } else { l.call }, 0);
}

/// The calls that are answered `ok`.
fn plain(n: &mut Network, l: &Line) -> Option<u64> {
    let v = &l.v;
    Some(match l.call {
        "down" => n.take_down(v[0]).number,
        "up" => n.bring_up(v[0], v[1]).number,
        "handlers" => n.set_handlers(v[0], v[1], v[2]).number,
        "block" => n.block(v[0], v[1]).number,
        "blockd" => n.block_during(v[0], v[1], v[2], v[3]).number,
        "unblock" => n.unblock(v[0], v[1]).number,
        _ => return None,
    })
}

/// The digest of bytes.
fn digest(input: &[u8], o: &mut String) {
    let d = calls::digest(input);
    let words: String = d.words.iter().map(|w| format!("{:08x}", w.swap_bytes())).collect();
    valued(o, "digest", d.number.into(), words);
}

/// The calls that are answered by a value.
fn value_call(n: &mut Network, l: &Line, o: &mut String) -> Option<()> {
    let v = &l.v;
    let reply = match l.call {
        "isblocked" => n.is_blocked(v[0], v[1], v[2]),
        "install" => n.install(&l.bytes),
        "remove" => n.remove(v[0]),
        "fired" => n.fired(v[0]),
        "decide" => n.decide(v[0], v[1], v[2], v[3], v[4]),
        "transit" => n.in_transit(v[0]),
        "next" => n.next_time(),
        _ => return None,
    };
    let value = reply.value;
    let text = match (l.call, reply.found) {
        ("install", _) => format!("id={value}"),
        ("remove", 0) => "0 fired=-".into(),
        ("remove", _) => format!("1 fired={value}"),
        ("fired", 0) => "gone".into(),
        ("next", 0) => "-".into(),
        ("decide", _) => format!("{} words={}", if value == 1 { "drop" } else { "pass" }, n.net[calls::FAULT_WORDS]),
        _ => value.to_string(),
    };
    valued(o, l.call, reply.number, text);
    Some(())
}

/// Makes one call; `None` for what no line can say.
fn exec(n: &mut Network, l: &Line, o: &mut String) -> Option<()> {
    match l.call {
        "accept" => accept(n, l, o),
        "flush" => flush(n, l.v[0], l.v.get(1).copied().unwrap_or(SLOTS), o),
        "drain" => drain(n, o),
        "waiting" => waiting(n, o),
        "seen" if l.v.is_empty() => (0..n.sizes.tills).for_each(|t| seen(n, t, o)),
        "seen" => seen(n, l.v[0], o),
        "tills" | "blocks" | "rules" | "words" | "rings" => table(n, l.call, o),
        "region" | "link" | "transmission" => geography(n, l, o)?,
        "setfired" | "setwords" | "setfault" | "setseq" | "setrules" => hook(n, l, o),
        "digest" => digest(&l.bytes, o),
        // no C function
        "latency" | "draw" | "should" | "linkkey" | "wire" | "nanos" | "secs" | "times" => {}
        "state" => {
            for call in ["tills", "blocks", "rules", "words", "rings", "seen", "waiting"] {
                exec(n, &Line { call, v: Vec::new(), bytes: Vec::new() }, o)?;
            }
        }
        call => match plain(n, l) {
            Some(number) => done(o, call, number),
            None => value_call(n, l, o)?,
        },
    }
    Some(())
}

/// An opening takes the place of the network before it, where it is accepted.
fn open(network: &mut Option<Network>, words: &[&str], o: &mut String) -> Option<()> {
    let opening = opening(words)?;
    let number = Network::open(&opening).map(|n| *network = Some(n)).err();
    done(o, "open", number.unwrap_or(0));
    Some(())
}

/// Runs line `number` of a script; the answer lines end in a line break each.
pub fn run_line(network: &mut Option<Network>, line: &str, number: usize) -> String {
    let words: Vec<&str> = line.split([' ', '\t', '\r']).filter(|w| !w.is_empty()).collect();
    let Some((call, rest)) = words.split_first().filter(|w| !w.0.starts_with('#')) else {
        return String::new();
    };
    let mut o = String::new();
    let done = match *call {
        _ if line.len() > LINE => None,
        "open" => open(network, rest, &mut o),
        _ => network.as_mut().and_then(|n| exec(n, &read(call, rest)?, &mut o)),
    };
    if done.is_none() { format!("err {number}\n") } else { o }
}
