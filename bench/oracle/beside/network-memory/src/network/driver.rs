//! Runs the calls of a script (docs/SCRIPTS.md) on the original `SimulatedNetwork`. It stands inside the original's module
//! `network` to read fields that are private there, and changes none of the original's text.
mod engine;
mod handling;
mod leaves;
mod opening;
mod reading;
mod spelling;

use super::*;
use handling::Heard;
use spelling::{bytes, flag, mask, number};
use std::fmt::Write as _;

/// The original network with its streams, and what a script knows by number: types, shards, rules.
pub struct Driver {
    net: SimulatedNetwork,
    streams: LinkStreams,
    names: Vec<&'static str>,
    shards: Vec<ShardId>,
    rules: Vec<RuleHandle>,
    heard: Arc<Mutex<Vec<Heard>>>,
}

/// A copy in every field.
#[derive(Debug, Clone, PartialEq, Eq)]
pub struct Copied {
    pub from: u32,
    pub to: u32,
    pub kind: usize,
    pub class: usize,
    pub sent: u64,
    pub time: u64,
    pub shard: Option<u8>,
    pub wire: usize,
    pub sequence: u64,
    pub id: Option<u64>,
    pub tag: u64,
}

fn time(ns: u64) -> Duration {
    Duration::from_nanos(ns)
}

fn ns(time: Duration) -> u64 {
    u64::try_from(time.as_nanos()).expect("a time of 64 bits")
}

fn tag_of(payload: &[u8]) -> u64 {
    u64::from_le_bytes(payload.try_into().expect("a tag has eight bytes"))
}

/// The value, or `-` where there is none.
fn or_dash(value: Option<impl ToString>) -> String {
    value.map_or("-".to_string(), |v| v.to_string())
}

impl std::fmt::Display for Copied {
    fn fmt(&self, f: &mut std::fmt::Formatter<'_>) -> std::fmt::Result {
        let id = or_dash(self.id.map(|id| format!("{id:016x}")));
        write!(f, "{} {} {} {} {} {} ", self.from, self.to, self.kind, self.class, self.sent, self.time)?;
        write!(f, "{} {} {} {id} {}", or_dash(self.shard), self.wire, self.sequence, self.tag)
    }
}

/// The shards of a mask.
fn hosted(mask: u32, shards: &[ShardId]) -> BTreeSet<ShardId> {
    shards.iter().filter(|s| mask >> s.number & 1 == 1).copied().collect()
}

impl Driver {
    fn kind_of(&self, name: &str) -> usize {
        self.names.iter().position(|n| *n == name).expect("a type of the opening")
    }

    /// A waiting copy of the original.
    fn copied(&self, copy: &ScheduledGossip) -> Copied {
        let r = &copy.record;
        Copied {
            from: r.from,
            to: r.to,
            kind: self.kind_of(r.message_type),
            class: r.class as usize,
            sent: ns(r.sent_at),
            time: ns(r.delivered_at),
            shard: r.shard.map(|s| s.number),
            wire: r.wire_bytes,
            sequence: copy.sequence,
            id: copy.msg_id,
            tag: tag_of(&copy.payload),
        }
    }

    /// The waiting copies by time, then sequence.
    pub fn waiting(&self) -> Vec<Copied> {
        let mut all: Vec<Copied> = self.net.pending_gossip.iter().map(|c| self.copied(&c.0)).collect();
        all.sort_by_key(|c| (c.time, c.sequence));
        all
    }

    pub fn waiting_count(&self) -> usize {
        self.net.pending_gossip.len()
    }

    pub fn window_count(&self) -> usize {
        self.net.faults.windows()
    }

    pub fn rule_count(&self) -> usize {
        self.net.faults.rules().count()
    }

    /// A till of the opening.
    fn till(&self, word: &str) -> Option<NodeIndex> {
        number(word).filter(|t| (*t as usize) < self.net.total_nodes())
    }

    /// Sends an entry; `payload` is the tag that it opens to.
    fn send(&mut self, from: NodeIndex, now: u64, entry: OutboxEntry, payload: Option<u64>) -> FulfillmentStats {
        compression::set_payload(payload);
        let stats = self.net.accept_gossip(from, time(now), entry, &mut self.streams);
        assert_eq!(stats.messages_retransmitted, 0);
        stats
    }

    /// `g`, or a shard of the opening.
    fn target(&self, word: &str) -> Option<BroadcastTarget> {
        match word.strip_prefix('s') {
            Some(shard) => self.shards.get(number::<usize>(shard)?).map(|s| BroadcastTarget::Shard(*s)),
            None => (word == "g").then_some(BroadcastTarget::Global),
        }
    }

    /// Sends an entry and tells its counts.
    fn accept(&mut self, w: [&str; 8], o: &mut String) -> Option<()> {
        let [from, now, kind, class, to, wire, opens, tag] = w;
        let entry = OutboxEntry {
            target: self.target(to)?,
            message_type: self.names.get(number::<usize>(kind)?)?,
            class: *MessageClass::ALL.get(number::<usize>(class)?)?,
            data: bytes(wire)?,
        };
        let id = gossip_message_id(&entry);
        let payload = number(tag)?;
        let s = self.send(number(from)?, number(now)?, entry, flag(opens)?.then_some(payload));
        let _ = write!(o, "accept sent={} dedup={} ", s.messages_sent, s.messages_deduplicated);
        let _ = write!(o, "partition={} loss={} ", s.messages_dropped_partition, s.messages_dropped_loss);
        let _ = write!(o, "fault={} id={id:016x} ", s.messages_dropped_fault);
        let _ = writeln!(o, "sequence={} waiting={}", self.net.gossip_sequence, self.waiting_count());
        Some(())
    }

    /// For a benchmark: a handler of type 0 that does nothing.
    pub fn listen(&mut self, till: NodeIndex) {
        self.net.registries[till as usize].register_raw_gossip(self.names[0], Arc::new(|_, _, _| None));
    }

    /// For a benchmark: a global entry of type 0 and class 1; how many were sent, and how many not.
    pub fn broadcast(&mut self, from: NodeIndex, now: u64, wire: &[u8], tag: u64) -> (u64, u64) {
        let entry =
            OutboxEntry { target: BroadcastTarget::Global, message_type: self.names[0], class: MessageClass::One, data: wire.to_vec() };
        let s = self.send(from, now, entry, Some(tag));
        (s.messages_sent, s.messages_deduplicated + s.messages_dropped_partition + s.messages_dropped_loss + s.messages_dropped_fault)
    }

    /// For a benchmark: flushes, and gives how many rows had a handler.
    pub fn land(&mut self, now: u64) -> u64 {
        self.net.flush_gossip(time(now)).0 as u64
    }

    /// The calls on tills.
    fn till_call(&mut self, call: &str, w: &[&str]) -> Option<()> {
        match (call, w) {
            ("down", [t]) => self.net.take_down(self.till(t)?),
            ("up", [t, shards]) => self.net.bring_up(self.till(t)?, hosted(mask(shards)?, &self.shards)),
            ("handlers", [t, gossip, host]) => self.set_handlers(self.till(t)?, mask(gossip)?, mask(host)?),
            _ => return None,
        }
        Some(())
    }

    /// Makes one call; `None` where the line is none.
    fn call(&mut self, call: &str, w: &[&str], o: &mut String) -> Option<()> {
        match call {
            "accept" => self.accept(w.try_into().ok()?, o),
            // the original's output has a row for every copy
            "flush" => match w {
                [now] => self.flush(number(now)?, o),
                [now, rows] => number::<u64>(rows).and_then(|_| self.flush(number(now)?, o)),
                _ => None,
            },
            "down" | "up" | "handlers" => {
                self.till_call(call, w)?;
                let _ = writeln!(o, "{call} ok");
                Some(())
            }
            "block" | "blockd" | "unblock" | "isblocked" => self.block_call(call, w, o),
            "install" | "remove" | "fired" | "setfired" | "decide" => self.rule_call(call, w, o),
            "digest" | "draw" | "nanos" | "secs" | "times" | "wire" => leaves::leaf(call, w, o),
            "should" | "latency" | "linkkey" | "region" | "link" | "transmission" => self.link_call(call, w, o),
            _ => self.reading(call, w, o),
        }
    }
}

/// The answer to line `n` of a script: lines of text, each with its end.
pub fn answer(driver: &mut Option<Driver>, line: &str, n: usize) -> String {
    let words: Vec<&str> = line.split_ascii_whitespace().collect();
    let Some((call, rest)) = words.split_first().filter(|w| !w.0.starts_with('#')) else {
        return String::new();
    };
    let mut o = String::new();
    let done = if *call == "open" {
        opening::open(rest).map(|opened| {
            *driver = Some(opened);
            o.push_str("open ok\n");
        })
    } else {
        driver.as_mut().and_then(|d| d.call(call, rest, &mut o))
    };
    if done.is_none() { format!("err {n}\n") } else { o }
}
