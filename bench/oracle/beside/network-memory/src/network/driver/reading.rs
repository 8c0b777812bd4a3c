//! The calls that only read, and `drain`.
use super::*;

/// What `state` is made of, in order.
const STATE: [&str; 7] = ["tills", "blocks", "rules", "words", "rings", "seen", "waiting"];

impl Driver {
    /// Counts, tallies and records of the log.
    fn drain(&mut self, o: &mut String) {
        let d = self.net.drain_deliveries();
        let tallies: Vec<String> = d.by_class.iter().map(|t| format!("{}:{}", t.deliveries, t.bytes)).collect();
        let _ = writeln!(o, "drain records={} dropped={} tallies={}", d.records.len(), d.dropped, tallies.join(","));
        for r in d.records {
            let (kind, shard) = (self.kind_of(r.message_type), or_dash(r.shard.map(|s| s.number)));
            let _ = write!(o, "record {} {} {kind} {} ", r.from, r.to, r.class as usize);
            let _ = writeln!(o, "{} {} {shard} {}", ns(r.sent_at), ns(r.delivered_at), r.wire_bytes);
        }
    }

    /// The marks of a till.
    fn seen(&self, till: usize, o: &mut String) {
        let ids: BTreeSet<u64> = self.net.gossip_seen[till].iter().copied().collect();
        let _ = write!(o, "seen {till} {}", ids.len());
        ids.into_iter().for_each(|id| _ = write!(o, " {id:016x}"));
        o.push('\n');
    }

    /// The waiting copies.
    fn copies(&self, o: &mut String) {
        let all = self.waiting();
        let _ = writeln!(o, "waiting {}", all.len());
        all.into_iter().for_each(|c| _ = writeln!(o, "copy {c}"));
    }

    /// The words that the streams have given.
    fn words(&self, o: &mut String) {
        let _ = writeln!(o, "words fault={}", self.net.faults.words());
        for (from, to, words) in self.streams.words().filter(|w| w.2 > 0) {
            let _ = writeln!(o, "word {from} {to} {words}");
        }
    }

    /// By type, then shard, global first.
    fn rings(&self, o: &mut String) {
        let mut lines = BTreeMap::new();
        for ((name, shard), ring) in &self.net.gossip_carried {
            let shard = shard.map(|s| s.number);
            let mut line = format!("ring {} {} {}", self.kind_of(name), or_dash(shard), ring.len());
            for m in ring {
                assert_eq!(m.shard.map(|s| s.number), shard);
                let _ = write!(line, " {}/{}/{}", m.class as usize, m.wire_bytes, tag_of(&m.payload));
            }
            lines.insert((self.kind_of(name), shard), line);
        }
        let _ = writeln!(o, "rings {}", lines.len());
        lines.values().for_each(|line| _ = writeln!(o, "{line}"));
    }

    /// Each rule and how often it fired.
    fn rules(&self, o: &mut String) {
        let _ = write!(o, "rules {}", self.rule_count());
        self.net.faults.rules().for_each(|(id, fired)| _ = write!(o, " {id}:{fired}"));
        o.push('\n');
    }

    /// Each till: up or down, shards, handlers.
    fn tills(&self, o: &mut String) {
        o.push_str("tills");
        for (t, registry) in self.net.registries.iter().enumerate() {
            let types = |takes: &dyn Fn(&'static str) -> bool| -> u32 {
                self.names.iter().enumerate().map(|(k, name)| u32::from(takes(name)) << k).sum()
            };
            let shards: u32 = registry.hosted_shards().iter().map(|s| 1 << s.number).sum();
            let gossip = types(&|name| registry.get_gossip(name).is_some());
            let host = types(&|name| registry.get_host_gossip(name).is_some());
            let up = u8::from(!self.net.is_down(t as NodeIndex));
            let _ = write!(o, " {up}/{shards:04x}/{gossip:04x}/{host:04x}");
        }
        o.push('\n');
    }

    /// The calls that read.
    pub fn reading(&mut self, call: &str, w: &[&str], o: &mut String) -> Option<()> {
        match (call, w) {
            ("drain", []) => self.drain(o),
            ("waiting", []) => self.copies(o),
            ("words", []) => self.words(o),
            ("rings", []) => self.rings(o),
            ("rules", []) => self.rules(o),
            ("tills", []) => self.tills(o),
            ("blocks", []) => _ = writeln!(o, "blocks edges={} windows={}", self.net.partition_count(), self.window_count()),
            ("next", []) => _ = writeln!(o, "next {}", or_dash(self.net.next_gossip_delivery_time().map(ns))),
            ("seen", []) => (0..self.net.total_nodes()).for_each(|t| self.seen(t, o)),
            ("seen", [t]) => self.seen(self.till(t)? as usize, o),
            ("transit", [t]) => {
                let to = self.till(t)?;
                // the original has no such figure: its waiting copies that have an id are counted (document 02, M-101)
                let originals = self.waiting().iter().filter(|c| c.to == to && c.id.is_some()).count();
                let _ = writeln!(o, "transit {originals}");
            }
            ("state", []) => {
                for part in STATE {
                    self.reading(part, &[], o)?;
                }
            }
            _ => return None,
        }
        Some(())
    }
}
